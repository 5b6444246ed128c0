# Draws a table of to_csv.py (without -w) as a picture: the values of each channel over the time.
#     gnuplot -c scripts/plot.gp TABLE PICTURE.png [SUBDEVICE [FROM TO]]
# Without SUBDEVICE it is subdevice 0. FROM and TO are milliseconds, and without them the whole time is drawn.
# Analog values are joined by lines. Digital channels are steps one above the other: a channel's 0 lies at its number.
usage = "usage: gnuplot -c scripts/plot.gp TABLE PICTURE.png [SUBDEVICE [FROM TO]], with FROM and TO in milliseconds"
if (ARG1 eq "--help" || ARG1 eq "-h") { set print "-"; print usage; exit status 0 }
is_number(text) = strlen(text) == 0 || strstrt("0123456789.", text[1:1]) > 0 && is_number(text[2:])
if (ARGC < 2 || ARGC == 4 || ARGC > 5 || !is_number(ARG3 . ARG4 . ARG5)) { print usage; exit status 2 }
upto(text, quote) = text[1:strstrt(text, quote) - 1]
after(text, quote) = text[strstrt(text, quote) + 1:]
quoted(text) = strstrt(text, "'") ? upto(text, "'") . "'\\''" . quoted(after(text, "'")) : text
fault = system("LC_ALL=C cat -- '" . quoted(ARG1) . "' 2>&1 >/dev/null | sed 's/^cat: //'")
if (strlen(fault)) { print "plot.gp: " . fault; exit status 2 }

table = ARG1
sub = ARGC > 2 ? int(ARG3) : 0
set datafile separator ","
# A row of another channel is left out, and doesn't break a line.
set datafile missing NaN
# Which channels there are, and whether all values are bits.
channels = " "
digital = 1
look(channel, value) = (channels = strstrt(channels, " " . channel . " ") ? channels : channels . channel . " ", \
    digital = digital && (value eq "0" || value eq "1"))
if (strlen(system("sed -n 2p '" . quoted(table) . "'"))) {
    stats table using ($2 == sub ? look(strcol(3), strcol(4)) : 0) skip 1 nooutput
}
if (channels eq " ") { print sprintf("plot.gp: %s: no sample of subdevice %d", table, sub); exit status 1 }

set terminal pngcairo size 720,360 noenhanced font "sans,9"
set output ARG2
set xlabel "time in ms"
if (ARGC == 5) { set xrange [real(ARG4):real(ARG5)] }
set key outside right top
set grid
if (digital) {
    set ylabel "channel: 0 on its line, 1 above it"
    set ytics 1
    set offsets 0, 0, 0.2, 0.2
    plot for [channel in channels] table skip 1 \
        using ($2 == sub && strcol(3) eq channel ? 1000 * $1 : NaN):($3 + 0.7 * $4) \
        with steps linewidth 1.5 title "channel " . channel
} else {
    set ylabel "value in the range's unit"
    plot for [channel in channels] table skip 1 \
        using ($2 == sub && strcol(3) eq channel ? 1000 * $1 : NaN):4 \
        with linespoints pointtype 7 pointsize 0.1 title "channel " . channel
}
