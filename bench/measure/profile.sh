#!/bin/bash
# profile.sh NAME INPUT: what the steps of $ROOM/bin/NAME.prof over an input spend, by function, by callers too
cd $ROOM
(cd work/$2; valgrind --tool=callgrind --collect-atstart=no "--toggle-collect=jr_session::sessions::Session::step*" \
  --callgrind-out-file=$ROOM/spent $ROOM/bin/$1.prof run --out out s.json $(cat args) > $ROOM/said 2>&1)
callgrind_annotate spent > self.$1.$2
callgrind_annotate --inclusive=yes spent > inclusive.$1.$2
callgrind_annotate --tree=caller spent > callers.$1.$2
