# Draws docs/starts.svg of the table of starts in docs/figures.md, which dev/bench/run starts measures. From the top:
#   gnuplot dev/bench/starts.gp
set terminal svg size 950,300 font "DejaVu Sans,12" background "white"
set output "docs/starts.svg"
rows = "< sed -n '/^## A file.s start/,/^The program/{/^| [0-9]/{s/[|,]//g;p}}' docs/figures.md"
set multiplot layout 1,3
set xlabel "million placed pieces in the file"
set xrange [0:*]
set yrange [0:*]
set grid ytics
set border 3
set tics nomirror out
unset key
set title "A start of serve, processor seconds"
plot rows using ($1/1e6):5 with linespoints pointtype 7 linecolor "#1f2933"
set title "Its memory then, MB"
plot rows using ($1/1e6):6 with linespoints pointtype 7 linecolor "#1f2933"
set title "The file, MB"
plot rows using ($1/1e6):3 with linespoints pointtype 7 linecolor "#1f2933"
unset multiplot
