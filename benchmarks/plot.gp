# Growth curves, a panel a row: gnuplot -e "csv='FILE'; picture='FILE'" plot.gp
set terminal pngcairo size 1600,1800 font "sans,11" background "white"
set output picture
set datafile separator ","
set logscale xy
set xtics ("16" 16, "64" 64, "256" 256, "1,024" 1024, "4,096" 4096)
set xrange [12:5500]
set yrange [30:2000000]
set ytics ("100 ns" 100, "1 µs" 1000, "10 µs" 10000, "100 µs" 100000, "1 ms" 1000000)
set grid xtics ytics lc rgb "#dddddd"
set xlabel "units of each store" font ",10"
set ylabel "time an operation" font ",10"

# The lines of one row and one contestant; nothing where it did not take part.
of(row, who) = sprintf("< awk -F'\"' '{split($1, a, \",\"); split($3, b, \",\")} a[1] == \"%s\" && $2 == \"%s\" {print a[2] \",\" b[2]}' %s", row, who, csv)

rows = "'fetch' 'rewrite' 'remove and write' 'fetch over 14 deltas' 'group fetch' 'group size' 'group rewrite' 'mixed block'"
# Of these some begin at 64 or at 512 units.
rows = rows . " 'fill and empty at random' 'fill and empty rising' 'fill and empty falling' 'group remove and write' 'group fetch below 12 updates' 'finalise of 60 tags'"
set multiplot layout 4,4 title "The old Rust and the proved library, best of a hundred rounds, one thread" font ",14"
do for [row in rows] {
    set title row font ",12"
    # One legend is enough.
    if (row eq "fetch") { set key top left Left reverse samplen 2 font ",10" } else { unset key }
    plot of(row, "old, real") using 1:2 with linespoints lw 2 pt 7 ps 0.8 lc rgb "#1f77b4" title "old Rust, real dashmap", \
         of(row, "old, stand-ins") using 1:2 with linespoints lw 1 pt 6 ps 0.8 lc rgb "#7fb3d8" title "old Rust, stand-ins", \
         of(row, "inner") using 1:2 with linespoints lw 2 pt 5 ps 0.8 lc rgb "#d62728" title "library, inner call", \
         of(row, "typed") using 1:2 with linespoints lw 1 pt 4 ps 0.8 lc rgb "#ff9896" title "library, typed and locked", \
         of(row, "open") using 1:2 with linespoints lw 1 dt 2 pt 8 ps 0.8 lc rgb "#888888" title "library, open call"
}
unset multiplot
