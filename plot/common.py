# What the scripts of this folder share: texts for a terminal, an SVG file and gnuplot, the table that is read, gnuplot and matplotlib, and the picture that is written.
import os, shutil, subprocess, sys

# How a whole picture ends.
ENDS = {"png": b"IEND\xaeB\x60\x82", "svg": b"</svg>"}


# Ends with the reason on standard error.
def stop(why):
    print("plot/%s: %s" % (os.path.basename(sys.argv[0]), shown(why)), file=sys.stderr)
    sys.exit(2)


# A text with nothing in it that a terminal or an SVG file can't have, whatever the name of a file is.
def shown(text):
    return "".join(c if c.isprintable() else "?" for c in os.fsencode(text).decode("utf-8", "replace"))


# Of a name no more than a legend has room for.
def short(name):
    return shown(name) if len(shown(name)) <= 50 else "..." + shown(name)[-47:]


# What a table is called.
def called(name):
    return "standard input" if name == "-" else name


# The lines of a table, or of standard input for `-`.
def lines_of(name):
    try:
        with open(0 if name == "-" else name, "rb", closefd=name != "-") as f:
            return f.read().decode("ascii", "replace").splitlines()
    except OSError as e:
        stop("%s: %s" % (called(name), e.strerror))


# png or svg, by the name of the picture, which is none of the tables.
def kind_of(out, names):
    kind = out[-4:].lower().lstrip(".")
    if kind not in ENDS or out[-4:-3] != ".":
        stop("%s: give a name that ends in .png or .svg" % out)
    if any(os.path.exists(out) and name != "-" and os.path.exists(name) and os.path.samefile(out, name) for name in names):
        stop("%s: is one of the tables" % out)
    return kind


# A text for gnuplot: single quotes keep all but themselves as it is.
def quoted(text):
    return "'" + text.replace("'", "' . \"'\" . '") + "'"


# How gnuplot begins a picture of this size whose plot is between two places in pixels from below.
def opening(kind, width, height, foot, head):
    size = "size %d,%d noenhanced" % (width, height)
    return [
        "set encoding utf8",
        "set terminal " + ("pngcairo %s font 'Sans,13'" % size if kind == "png" else "svg %s font 'sans-serif,15' background '#ffffff'" % size),
        "set lmargin at screen 0.08",
        "set rmargin at screen 0.97",
        "set bmargin at screen %.4f" % (foot / height),
        "set tmargin at screen %.4f" % (head / height),
        "unset key",
        "set format '%.10g'",
        "set grid linetype 1 linecolor rgb '#dddddd'",
        "set tics nomirror",
        "set border 3 back",
    ]


# The picture that gnuplot makes of a script.
def by_gnuplot(script, kind):
    made = subprocess.run(["gnuplot", "-d"], input=script.encode(), stdout=subprocess.PIPE, stderr=subprocess.PIPE)
    if made.returncode != 0 or not made.stdout.rstrip().endswith(ENDS[kind]):
        stop("gnuplot failed: " + " ".join(made.stderr.decode("utf-8", "replace").split()))
    return made.stdout


# An empty picture of matplotlib, and its axes, which have these labels.
def figure_of(width, height, foot, head, x_label, y_label):
    try:
        from matplotlib import rcParams, rcdefaults
        from matplotlib.figure import Figure
    except ImportError as e:
        stop("neither gnuplot nor matplotlib (%s) is here, and one of them is needed (Debian: apt-get install gnuplot-nox, or python3-matplotlib)" % e)
    rcdefaults()
    rcParams["svg.fonttype"] = "none"
    figure = Figure(figsize=(width / 100, height / 100), dpi=100)
    axes = figure.add_axes([0.08, foot / height, 0.89, (head - foot) / height])
    axes.set_xlabel(x_label, fontsize=13)
    axes.set_ylabel(y_label, fontsize=13)
    axes.tick_params(labelsize=13)
    axes.ticklabel_format(style="plain", useOffset=False)
    axes.grid(color="#dddddd")
    for side in ["top", "right"]:
        axes.spines[side].set_visible(False)
    return figure, axes


# The legend of matplotlib's picture, below the axes. A dollar sign would begin a formula, and what begins with _ would be left out.
def legend_of(figure, marks, texts, place):
    texts = [" " + text.replace("$", r"\$") for text in texts]
    figure.legend(marks, texts, loc="upper left", bbox_to_anchor=(0.08, place), borderaxespad=0, labelspacing=0.2, frameon=False, fontsize=13)


def has_gnuplot():
    return shutil.which("gnuplot") is not None


def write(name, picture):
    try:
        with open(name, "wb") as f:
            f.write(picture)
    except OSError as e:
        stop("%s: %s" % (name, e.strerror))
