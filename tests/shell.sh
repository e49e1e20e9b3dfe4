#!/bin/sh
# Runs the program as a stranger would, at the shell: words, images and streams, each with the status,
# the standard output and the standard error that docs/COMMANDS.md says.
#
# usage: tests/shell.sh [PROGRAM]; without one the program that the gate built, else `make edge`
cd "$(dirname "$0")/.." || exit 1
top=$PWD
program=${1:-crates/edge/out/edge}
if [ ! -x "$program" ]; then
	make edge || exit 1
	program=build/edge
fi
case $program in /*) ;; *) program=$top/$program ;; esac

room=$(mktemp -d) || exit 1
trap 'rm -rf "$room"' EXIT
cd "$room" || exit 1

# The images: a fresh one of 8 blocks, and what may stand in its place.
cp "$top/crates/edge/data/tiny.img" tiny.img
cp tiny.img ./-dash.img
mkdir folder empty
: >empty.img
head -c 4095 tiny.img >short.img
head -c 1024 tiny.img >two.img
head -c 700 /dev/zero | cat tiny.img - >long.img
head -c 8192 /dev/zero | tr '\0' '\245' >garbage.img
{ head -c 1536 tiny.img; head -c 512 /dev/zero; tail -c +2049 tiny.img; } >rootless.img
cp tiny.img locked.img
chmod 444 locked.img
ln -s tiny.img link.img
printf 'stat /\n' >stat
printf 'stat /\nx\n\nstat /' >lines
head -c 100000 /dev/zero | tr '\0' x >line
head -c 1000 /dev/urandom | tr -d '\n' >noise

passed=0
failed=0

# check STATUS OUTPUT ERROR WORD.. : runs the program with these words on standard input. OUTPUT and ERROR are
# given without the last line feed.
check() {
	wanted=$1 output=$2 error=$3
	shift 3
	"$program" "$@" >out 2>err
	judge "$?" "$*"
}

# judge STATUS NAME : compares what a run has left with what is wanted.
judge() {
	if [ -n "$output" ]; then printf '%s\n' "$output" >wanted_out; else : >wanted_out; fi
	if [ -n "$error" ]; then printf '%s\n' "$error" >wanted_err; else : >wanted_err; fi
	if [ "$1" = "$wanted" ] && cmp -s out wanted_out && cmp -s err wanted_err; then
		passed=$((passed + 1))
		return
	fi
	failed=$((failed + 1))
	echo "edge $2: status $1, wanted $wanted; standard output, standard error, and those that are wanted:"
	cat out err
	cat wanted_out wanted_err
}

root='ok 2 d 0 1'

# Words that are no command. No file is made or opened.
for words in '' help --help -h version run format 'stat /' 'run -b 512' 'run tiny.img -b' 'run tiny.img -b 513' \
	'run tiny.img -b 0512' 'run tiny.img -b 512 -b 512' 'run tiny.img -b=512' 'run tiny.img other.img' \
	'run -- tiny.img' 'run -dash.img' 'run tiny.img -n 8' 'RUN tiny.img' 'tiny.img run' 'format new.img' \
	'format new.img -n 8' 'format new.img -m 1' 'format new.img -n 8 -m 1 -x 1' 'format new.img -n eight -m 1' \
	'format new.img -n -8 -m 1' 'format new.img -n +8 -m 1' 'format new.img -n 4294967296 -m 1' \
	'format -n 8 -m 1' 'format new.img -n 8 -m 1 -b 8192'; do
	# shellcheck disable=SC2086
	check 2 '' 'edge: status 2' $words <stat
done
check 2 '' 'edge: status 2' run '' <stat
check 2 '' 'edge: status 2' run "$(printf '\377')" <stat
[ ! -e new.img ] || { failed=$((failed + 1)); echo 'words that are refused made an image'; }

# Runs.
check 0 "$root" '' run tiny.img <stat
check 0 "$root" '' run -b 512 tiny.img <stat
check 0 "$root" '' run tiny.img -b 512 <stat
check 0 "$root" '' run ./-dash.img <stat
check 0 "$root" '' run link.img <stat
check 0 "$root" '' run "$room/tiny.img" <stat
check 0 "$root" '' run long.img <stat
check 0 "$(printf 'ok 2 d 0 1\nbad\nbad\nok 2 d 0 1')" '' run tiny.img <lines
check 0 '' '' run tiny.img </dev/null
check 0 bad '' run tiny.img <line
check 0 bad '' run tiny.img <noise
check 0 bad '' run tiny.img <"$top/crates/edge/data/tiny.img"
check 0 "$root" '' run tiny.img <<'END'
stat /
END

# Images that are no volume.
for image in missing.img folder/missing.img empty.img folder two.img garbage.img noise /dev/null /dev/full; do
	check 8 '' 'edge: status 8 reason 1' run "$image" <stat
done
check 8 '' 'edge: status 8 reason 3' run short.img <stat
for size in 1024 2048 4096; do
	check 8 '' 'edge: status 8 reason 1' run tiny.img -b "$size" <stat
done
[ ! -e missing.img ] || { failed=$((failed + 1)); echo 'run made an image'; }
if [ "$(id -u)" != 0 ]; then
	check 8 '' 'edge: status 8 reason 1' run locked.img <stat
fi

# Damage ends a run, and what was answered before it stays.
check 6 '' 'edge: status 6 block 3 kind 1' run rootless.img <stat
printf 'x\nstat /\nx\n' >damage
check 6 bad 'edge: status 6 block 3 kind 1' run rootless.img <damage

# Streams that fail.
check 3 '' 'edge: status 3' run tiny.img <folder
check 3 '' 'edge: status 3' run tiny.img <&-
wanted=4 output='' error='edge: status 4'
"$program" run tiny.img <stat >/dev/full 2>err
status=$?
: >out
judge $status 'run tiny.img >/dev/full'
"$program" run tiny.img <stat >&- 2>err
judge $? 'run tiny.img >&-'
"$program" format full.img -n 8 -m 1 >/dev/full 2>err
judge $? 'format full.img -n 8 -m 1 >/dev/full'
check 0 "$root" '' run full.img <stat
# Where standard error is closed or full too, the status still tells.
wanted=8 output='' error=''
"$program" run missing.img <stat >out 2>&-
status=$?
: >err
judge $status 'run missing.img 2>&-'
"$program" run missing.img <stat >out 2>/dev/full
judge $? 'run missing.img 2>/dev/full'
# An image is not taken for a stream that is closed.
cp tiny.img kept.img
wanted=4 output='' error='edge: status 4'
"$program" run kept.img <stat >&- 2>err
status=$?
: >out
judge $status 'run kept.img >&-'
cmp -s tiny.img kept.img || { failed=$((failed + 1)); echo 'a closed standard output reached the image'; }

# changed ONE OTHER : the blocks of 512 bytes in which two images differ.
changed() {
	cmp -l "$1" "$2" | awk '{ block = int(($1 - 1) / 512); if (!(block in seen)) print block; seen[block] }' | tr '\n' ' '
}

# differ BLOCKS ONE OTHER : compares these blocks with those that are wanted.
differ() {
	[ "$(changed "$2" "$3")" = "$1" ] || { failed=$((failed + 1)); echo "$3 differs from $2 in the blocks: $(changed "$2" "$3")"; }
}

# A run that changes no file changes the metaroot that is not live, and no other block.
cp "$top/crates/edge/data/tiny.img" fresh.img
cp fresh.img once.img
check 0 "$root" '' run once.img <stat
differ '2 ' fresh.img once.img
cp once.img twice.img
check 0 "$root" '' run twice.img <stat
differ '1 ' once.img twice.img
# Without the closing point it changes no byte: where the mask has none, and where a fault has ended it.
printf 'setmask 0\nstat /\n' >maskless
check 0 "$(printf 'ok\nok 2 d 0 1')" '' run fresh.img <maskless
check 3 '' 'edge: status 3' run fresh.img <folder
cp rootless.img damaged.img
check 6 '' 'edge: status 6 block 3 kind 1' run damaged.img <stat
differ '' rootless.img damaged.img
differ '' "$top/crates/edge/data/tiny.img" fresh.img

# What a run leaves the next one finds, but for what came behind the last point of a run that took no closing one.
check 0 'formatted 45' '' format kept.img -n 64 -m 8
printf 'mkdir /d\nopen /d/f wc\nwrite 0 6869\n' >making
printf 'open /d/f r\nread 0 4096\nread 0 1\nstat /d/f\nstat /e\n' >looking
printf 'setmask 0\nmkdir /d\nopen /d/f wc\ntransact\nwrite 0 6869\nmkdir /e\n' >losing
check 0 "$(printf 'ok\nok 0\nok 2')" '' run kept.img <making
check 0 "$(printf 'ok 0\ndata 6869\nend\nok 4 f 2 1\nno 2')" '' run kept.img <looking
check 0 'formatted 45' '' format kept.img -n 64 -m 8
check 0 "$(printf 'ok\nok\nok 0\nok\nok 2\nok')" '' run kept.img <losing
check 0 "$(printf 'ok 0\nend\nend\nok 4 f 0 1\nno 2')" '' run kept.img <looking

# The examples, each on a fresh volume.
for example in log config full tour; do
	check 0 'formatted 45' '' format "$example.img" -n 64 -m 8
	check 0 "$(cat "$top/examples/$example.replies")" '' run "$example.img" <"$top/examples/$example.script"
done

# A file has 65,535 names at most: its own in the root, and all others below 255 directories.
awk 'BEGIN {
	print "open /f wc"
	for (d = 1; d <= 255; d++) print "mkdir /" d
	for (d = 1; d <= 255; d++) for (k = 1; k <= (d < 255 ? 257 : 256); k++) print "link /f /" d "/" k
	print "link /f /g\nstat /f\nunlink /255/1\nlink /f /g\nlink /f /h\nstat /g"
}' >naming
awk 'BEGIN {
	print "ok 0"
	for (line = 2; line <= 65790; line++) print "ok"
	print "no 31\nok 3 f 0 65535\nok\nok\nno 31\nok 3 f 0 65535"
}' >named
check 0 'formatted 1445' '' format names.img -b 4096 -n 2048 -m 300
check 0 "$(cat named)" '' run names.img -b 4096 <naming

# Formats: the size of the file, the blocks that are told, and that the image runs.
check 0 'formatted 45' '' format new.img -n 64 -m 8
[ "$(wc -c <new.img)" -eq 32768 ] || { failed=$((failed + 1)); echo 'new.img has another size'; }
check 0 "$root" '' run new.img <stat
check 0 'formatted 3' '' format -n 8 new.img -m 1
[ "$(wc -c <new.img)" -eq 32768 ] || { failed=$((failed + 1)); echo 'a longer file lost its length'; }
for size in 1024 2048 4096; do
	check 0 'formatted 45' '' format -b "$size" -n 64 -m 8 -l 252 -a 1 -i 0 "size$size.img" </dev/null
	check 0 "$root" '' run "size$size.img" -b "$size" <stat
	check 8 '' 'edge: status 8 reason 1' run "size$size.img" <stat
done
check 0 'formatted 3991' '' format nodes.img -n 4000 -m 1
check 0 "$root" '' run nodes.img <stat
check 0 'formatted 4061115' '' format huge.img -n 4194304 -m 65536
check 0 "$root" '' run huge.img <stat
check 0 'formatted 3' '' format garbage.img -n 8 -m 1 <&-
check 0 "$root" '' run garbage.img <stat
for numbers in '-n 7 -m 1' '-n 8 -m 0' '-n 8 -m 2' '-n 4194305 -m 1' '-n 8 -m 1 -l 13' '-n 8 -m 1 -a 0' '-n 8 -m 1 -i 117'; do
	# shellcheck disable=SC2086
	check 10 '' 'edge: status 10' format unmade.img $numbers <stat
done
[ ! -e unmade.img ] || { failed=$((failed + 1)); echo 'a geometry that is refused made an image'; }
for image in folder folder/missing/new.img /dev/null; do
	check 10 '' 'edge: status 10' format "$image" -n 8 -m 1 <stat
done
if [ "$(id -u)" != 0 ]; then
	check 10 '' 'edge: status 10' format locked.img -n 8 -m 1 <stat
fi

# A write of which the host takes a part alone: the file may have 14,336 bytes, and the root's inode lies behind 12,288.
check 0 'formatted 3' '' format -b 4096 part.img -n 8 -m 1
wanted=5 output='' error='edge: status 5'
(trap '' XFSZ && ulimit -f 28 && "$program" format -b 4096 part.img -n 8 -m 1) >out 2>err
judge $? 'format -b 4096 part.img -n 8 -m 1, in 14,336 bytes'
check 8 '' 'edge: status 8 reason 1' run -b 4096 part.img <stat

# What the host is asked for, where there is a tracer: one sync when the image is opened, and two in the closing point.
# No flush makes up for a sync that failed.
if command -v strace >/dev/null && strace -o trace true 2>err; then
	cp tiny.img traced.img
	strace -o trace -e trace=fsync,fdatasync "$program" run traced.img <stat >out 2>err
	wanted=0 output=$root error=''
	judge $? 'run traced.img'
	[ "$(grep -c sync trace)" -eq 3 ] || { failed=$((failed + 1)); echo 'run syncs its image other than 3 times'; }
	wanted=5 output=$root error='edge: status 5'
	for sync in 1 2 3; do
		strace -o trace -e trace=fsync,fdatasync -e inject=fsync,fdatasync:error=EIO:when=$sync \
			"$program" run traced.img <stat >out 2>err
		judge $? "run traced.img, whose sync $sync fails"
	done
	check 0 "$root" '' run traced.img <stat
	wanted=5 output='' error='edge: status 5'
	strace -o trace -e trace=fsync,fdatasync -e inject=fsync,fdatasync:error=EIO:when=1 \
		"$program" format traced.img -n 8 -m 1 >out 2>err
	judge $? 'format traced.img, whose first sync fails'
	wanted=4 output='' error='edge: status 4'
	strace -o trace -e trace=write -e inject=write:error=EIO:when=1 "$program" run tiny.img <stat >out 2>err
	judge $? 'run tiny.img, whose first write fails'
	wanted=3 output='' error='edge: status 3'
	strace -o trace -e trace=read -P "$room/stat" -e inject=read:error=EIO "$program" run tiny.img <stat >out 2>err
	judge $? 'run tiny.img, whose reads fail'
else
	echo 'shell: no tracer, so calls of the host are not looked at'
fi

echo "shell: $passed passed, $failed failed"
[ "$failed" -eq 0 ]
