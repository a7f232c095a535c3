#!/bin/bash
# count.sh NAME INPUT: millions of instructions a step of $ROOM/bin/NAME, by callgrind; INPUT is gl or gf
cd $ROOM
for K in 1 3; do
  (cd work/$2$K; valgrind --tool=callgrind --callgrind-out-file=$ROOM/spent.$1.$2$K $ROOM/bin/$1 run --out out s.json $(cat args) \
    2>&1 > $ROOM/said.$1.$2$K | grep refs | sed 's/.*refs: *//; s/,//g' > $ROOM/count.$1.$2$K) &
done; wait
echo "$1 $2: $(( ($(cat count.$1.${2}3) - $(cat count.$1.${2}1)) / 2000000 )) a step"
