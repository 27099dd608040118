# What came of some calls: awk -f report.awk -- PART SUM DIGEST CALL .. (in the C locale). PART/NAME.samples is what the program printed for the file CALL. It
# prints a row of the summary for each call, and for those with a whole output writes PART/NAME.row, by which decode-some tells what is done. SUM is
# the check sum of the tables. For a call that was not decoded DIGEST is the result, unreadable or foreign.
#
# An output is whole if it ends with the total of the call's lines, or with the refusal of the line behind those that it has samples for.

BEGIN {
	OFS = "\t"
	hex = "0123456789abcdef"
	make_digits()
	for (i = 3; i < ARGC; i += 2) row(ARGV[i], ARGV[i + 1])
}

function row(digest, call,   name, result, form) {
	name = call
	sub(/.*\//, "", name)
	sub(/\.call$/, "", name)
	if (digest == "unreadable" || digest == "foreign") {
		print digest, escaped(name), "-", "-", "-", "-", "-", "-", "-", "-", "-", "-", "-", "-", "-"
		return
	}
	read_samples(ARGV[1] "/" name ".samples")
	read_call(call)
	result = outcome()
	form = result OFS escaped(name) OFS frames OFS voice OFS sid OFS quiet OFS lost OFS share() OFS longest OFS parity OFS level() OFS code OFS refused OFS digest
	print form
	if (result == "incomplete") return
	print digest " " ARGV[2] " " (327 * frames + length(end) - 2) " " (result == "refused" ? result : "samples") "\n" form >(ARGV[1] "/" name ".row")
	close(ARGV[1] "/" name ".row")
}

function escaped(text,   i, c, to) {
	for (i = 1; i <= length(text); i++) {
		c = substr(text, i, 1)
		to = to (c == "\\" ? "\\\\" : c == "\t" ? "\\t" : c == "\n" ? "\\n" : c)
	}
	return to
}

# Sets `frames`, `peak` and `end`, what stands behind the samples, with the line feed before it. Records end with `)`, so that a missing last line feed is seen.
function read_samples(file,   line, there) {
	frames = 0
	peak = -1
	in_vain = 0
	within = "^x"
	end = ""
	RS = ")"
	there = (getline line <file) > 0
	line = "\n" line
	while (there && length(line) == 326) {
		if (line !~ within) {
			if (substr(line, 1, 6) != "\n(pcm ") break
			find_peak(line)
		}
		frames++
		there = (getline line <file) > 0
	}
	while (there && length(end) < 99) {
		end = end line ")"
		there = (getline line <file) > 0
	}
	close(file)
	RS = "\n"
}

# Looks at each sample of a line, and sets `within`, a regular expression for lines that need no such look, which takes ten times as long: lines whose samples are below the peak in their
# upper digits, since awk keeps these few expressions from call to call. Where one look in eight is in vain, lines without a sample above the peak.
function find_peak(line,   i, n, before, least) {
	before = peak
	least = 256 * int(peak / 256)
	for (i = 7; i < 327; i += 4) {
		if (most[substr(line, i, 2)] < least) continue
		n = 256 * byte[substr(line, i, 2)] + byte[substr(line, i + 2, 2)]
		if (n > 32768) n = 65536 - n
		if (n > peak) peak = n
	}
	in_vain += peak == before
	if (in_vain > 2 + frames / 8) within = lines_of(bounded(sprintf("%04x", peak - (peak == 32768)), 1, "fff") (peak ? "|" bounded(sprintf("%04x", 65536 - peak), 0, "000") : ""))
	else if (peak > 255) within = below(peak < 4096 ? 2 : 1)
}

# Lines whose samples are below the peak in the first digit, or in the first two, where the first is 0 or f.
function below(digits,   n) {
	n = int(peak / (digits == 1 ? 4096 : 256))
	if ((digits, n) in made) return made[digits, n]
	return made[digits, n] = lines_of(digits == 1 ? "[" substr(hex, 1, n) substr(hex, 17 - n) "]..." : "0[" substr(hex, 1, n) "]..|f[" substr(hex, 17 - n) "]..")
}

# Two samples in a turn are faster than one.
function lines_of(sample) {
	return "^\n[(]pcm ((" sample ")(" sample "))*$"
}

# Digits as many as those of `h` that are a number up to it, or from it on; `all` has the digits by which any rest is within.
function bounded(h, up, all,   at, rest, others) {
	at = index(hex, substr(h, 1, 1))
	rest = substr(h, 2)
	if (rest == substr(all, 1, length(rest))) return (up ? class(1, at) : class(at, 16)) substr("...", 1, length(rest))
	others = up ? class(1, at - 1) : class(at + 1, 16)
	return "(" (others == "" ? "" : others substr("...", 1, length(rest)) "|") substr(h, 1, 1) bounded(rest, up, all) ")"
}

function class(from, to) {
	return from > to ? "" : "[" substr(hex, from, to - from + 1) "]"
}

# Counts the frames that have samples, by kind; `more` is whether the call has further lines, `fewer` whether it has not even these.
function read_call(file,   n, line, kind, run) {
	voice = sid = quiet = lost = longest = parity = 0
	for (n = 0; n < frames && (getline line <file) > 0; n++) {
		kind = substr(line, 9, 1)
		if (kind == "l") {
			lost++
			if (++run > longest) longest = run
			continue
		}
		run = 0
		if (kind == "v") {
			voice++
			parity += p1[substr(line, 19, 2)] == p0[substr(line, 21, 1)]
		} else if (kind == "s") sid++
		else quiet++
	}
	fewer = n < frames
	more = (getline line <file) > 0
	close(file)
}

# Sets `code` and `refused`, the line.
function outcome(   word) {
	code = refused = "-"
	if (fewer) return "incomplete"
	if (end == "\n(total (frames " frames ") (lost " sid + quiet + lost "))\n)" && !more) return frames == 0 ? "empty" : voice == 0 ? "no voice" : "decoded"
	if (end !~ /^\n[(]refused [(]code [0-9]+[)] [(]line [0-9]+[)][)]\n[)]$/) return "incomplete"
	split(end, word, /[ )]+/)
	code = word[3]
	refused = word[5]
	return refused == frames + 1 ? "refused" : "incomplete"
}

function share() {
	return frames ? sprintf("%.2f", 100 * lost / frames) : "-"
}

# The peak, and in dBov: 0 is 32768.
function level() {
	return peak < 0 ? "-" OFS "-" : peak OFS (peak ? sprintf("%.2f", 20 * log(peak / 32768) / log(10)) : "-inf")
}

# Two digits as a number, and the most that a sample can have which begins with them. Parity of a voice frame (ITU-T G.729 clause 3.7.2): it fails if bits 2 to 7 of P1 and P0 have an even number of ones. They are bits 18 to 23 and 26 of the
# frame, so the lower six of its digits 5 and 6, and one of digit 7.
function make_digits(   i) {
	for (i = 0; i < 256; i++) {
		byte[sprintf("%02x", i)] = i
		most[sprintf("%02x", i)] = i < 128 ? 256 * i + 255 : 65536 - 256 * i
		p1[sprintf("%02x", i)] = ones(i % 64) % 2
		p0[substr(hex, i % 16 + 1, 1)] = int(i / 2) % 2
	}
}

function ones(n) {
	return n ? n % 2 + ones(int(n / 2)) : 0
}
