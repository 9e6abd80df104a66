# Every way of the tool bark to end: bark.sh BARK. Prints each command, what it says on both outputs, and how it ends.
# tools/sample.py makes the files of tests/bark.
bark=$(realpath "$1")
here=$(cd "$(dirname "$0")/.." && pwd)
room=$(mktemp -d) || exit 1
trap 'rm -rf "$room"' EXIT
mkdir "$room/folder"
cp "$here"/tests/bark/* "$here"/examples/*.tables "$here"/examples/*.image "$here"/examples/*.pieces "$room" || exit 1
cd "$room" || exit 1

run() {
    echo "\$ bark $*" | cut -c1-100
    "$bark" "$@" 2>&1
    echo "exit $?"
}

# A copy of a file with other bytes at an offset: change FROM TO OFFSET BYTES
change() {
    cp "$1" "$2" && printf "$4" | dd of="$2" bs=1 seek="$3" conv=notrunc 2> /dev/null
}

long=$(printf '%0600d' 0)

echo '== link'
run link logger.tables 4 logger.image logger.pieces
cmp logger.image "$here/tests/logger.image" && cmp logger.pieces "$here/tests/logger.pieces" && echo "the image and its list are the model's"
run link logger.tables 2 leaf.image
run link forged.tables 4 forged.image forged.pieces
[ -e forged.image ] || [ -e forged.pieces ] || echo "nothing was written"
run link logger.tables four image
run link logger.tables "" image
run link logger.tables 4294967295 image
run link logger.tables 4294967296 image
run link logger.tables 99999999999999999999 image
run link logger.tables 5 image
run link missing.tables 4 image
run link folder 4 image
run link empty 4 image
run link short-lengths 4 image
run link short 4 image
run link lengths 4 image
run link long 4 image
run link large 4 image
run link refused-2 4 image
run link refused-2-lines 4 image
run link refused-3 4 image
run link refused-11 0 image
run link refused-12 4 image
run link "$long" 4 image
run link logger.tables 4 "$long"
run link logger.tables 4 folder
run link logger.tables 4 missing/image
run link logger.tables 4 /dev/full
echo '$ bark link logger.tables 4 image > /dev/full'
{ "$bark" link logger.tables 4 image > /dev/full; } 2>&1
echo "exit $?"
echo '$ bark link logger.tables 4 image >&-'
{ "$bark" link logger.tables 4 image >&-; } 2>&1
echo "exit $?"
[ -e image ] || echo "no run that failed left an image"
run link logger.tables 2 image "$long"
run link logger.tables 2 image folder
run link logger.tables 2 image missing/pieces
run link logger.tables 2 image /dev/full
cmp image leaf.image && echo "the image was written before its list"

echo '== examine: yes'
run examine logger.tables 4 logger.image logger.pieces
run examine logger.tables 4 elsewhere.image elsewhere.pieces
run examine deep 4 breadth.image breadth.pieces

echo '== examine: no, of the link'
run examine logger.tables 5 logger.image logger.pieces
run examine refused-2 4 logger.image logger.pieces
run examine refused-2-lines 4 logger.image logger.pieces
run examine refused-3 4 logger.image logger.pieces
change logger.tables neither 328 '\020'
run examine neither 4 logger.image logger.pieces
change logger.tables unknown 68 '\377\377\377\377'
run examine unknown 4 logger.image logger.pieces
change logger.tables no-code 300 '\006'
run examine no-code 4 logger.image logger.pieces
run examine forged.tables 4 logger.image logger.pieces
run examine refused-12 4 logger.image logger.pieces

echo '== examine: no, sizes'
{ printf '\340\0\0\0\010\010\0\0\040\001\0\0'; head -c 236 logger.image | tail -c 224; head -c 2056 /dev/zero; tail -c 288 logger.image; } > more
run examine logger.tables 4 more logger.pieces
{ printf '\337\0\0\0\050\0\0\0\040\001\0\0'; head -c 235 logger.image | tail -c 223; tail -c 328 logger.image; } > part
run examine logger.tables 4 part logger.pieces
head -c 39 logger.pieces > part.pieces
run examine logger.tables 4 logger.image part.pieces

echo '== examine: no, pieces'
run examine logger.tables 4 logger.image empty
run examine logger.tables 2 logger.image logger.pieces
change logger.pieces late.pieces 4 '\001'
run examine logger.tables 4 logger.image late.pieces
change logger.pieces nobody.pieces 8 '\005'
run examine logger.tables 4 logger.image nobody.pieces
change logger.pieces moved.pieces 12 '\012'
run examine logger.tables 4 logger.image moved.pieces
head -c 32 logger.pieces > fewer.pieces
run examine logger.tables 4 logger.image fewer.pieces
run examine logger.tables 4 elsewhere.image logger.pieces
run examine logger.tables 4 logger.image elsewhere.pieces
run examine deep 4 logger.image logger.pieces

echo '== examine: no, slots'
change logger.image opcode 12 '\267'
run examine logger.tables 4 opcode logger.pieces
change logger.image register 37 '\122'
run examine logger.tables 4 register logger.pieces
run examine logger.tables 4 diverted.image elsewhere.pieces
change logger.image inside 24 '\010'
run examine logger.tables 4 inside logger.pieces

echo '== examine: no, records'
change logger.image kind 248 '\377'
run examine logger.tables 4 kind logger.pieces
change logger.image line 380 '\377'
run examine logger.tables 4 line logger.pieces
{ printf '\340\0\0\0\040\0\0\0\040\001\0\0'; head -c 268 logger.image | tail -c 256; tail -c 288 logger.image; } > gone
run examine logger.tables 4 gone logger.pieces
{ printf '\340\0\0\0\060\0\0\0\040\001\0\0'; head -c 276 logger.image | tail -c 264; head -c 8 /dev/zero; tail -c 288 logger.image; } > over
run examine logger.tables 4 over logger.pieces
{ printf '\340\0\0\0\050\0\0\0\060\001\0\0'; tail -c 552 logger.image; head -c 16 /dev/zero; } > over
run examine logger.tables 4 over logger.pieces

echo '== examine: files'
run examine missing.tables 4 logger.image logger.pieces
run examine short 4 logger.image logger.pieces
run examine logger.tables 4 missing.image logger.pieces
run examine logger.tables 4 logger.image missing.pieces
run examine logger.tables 4 "$long" logger.pieces
run examine logger.tables 4 logger.image "$long"
run examine logger.tables 4 folder logger.pieces
run examine logger.tables 4 logger.image folder
run examine logger.tables 4 empty logger.pieces
head -c 11 logger.image > cut
run examine logger.tables 4 cut logger.pieces
head -c 100 logger.image > cut
run examine logger.tables 4 cut logger.pieces
head -c 563 logger.image > cut
run examine logger.tables 4 cut logger.pieces
{ cat logger.image; printf '\0'; } > on
run examine logger.tables 4 on logger.pieces
change logger.image wide 1 '\060'
run examine logger.tables 4 wide logger.pieces
head -c 4000 /dev/zero > full.pieces
run examine logger.tables 4 logger.image full.pieces
head -c 4001 /dev/zero > full.pieces
run examine logger.tables 4 logger.image full.pieces
echo '$ bark examine logger.tables 4 logger.image logger.pieces > /dev/full'
{ "$bark" examine logger.tables 4 logger.image logger.pieces > /dev/full; } 2>&1
echo "exit $?"

echo '== use'
run help
run --help > help
run -h >> help
run help me >> help
run link --help >> help
run examine -h >> help
grep -c '^usage' help
grep -c '^exit 0' help
echo '$ bark help > /dev/full'
{ "$bark" help > /dev/full; } 2>&1
echo "exit $?"
echo '$ bark 2> /dev/null'
"$bark" 2> /dev/null
echo "exit $?"
for wrong in '' link 'link logger.tables 4' 'link logger.tables 4 image pieces more' 'examine logger.tables 4 logger.image' \
    'examine logger.tables 4 logger.image logger.pieces more' 'logger.tables 4 image' 'link help' links exam Help 'link help me'; do
    run $wrong | grep -v '^ \|^$\|^link  \|^examine  \|^status '
done
run examine logger.tables four logger.image logger.pieces
