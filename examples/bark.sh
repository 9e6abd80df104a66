# The tool bark on the sample of tools/sample.py: bark.sh BARK
bark=$(realpath "$1")
cd "$(dirname "$0")" || exit 1
made=$(mktemp) || exit 1
cat <<'END'
logger.tables is a logger for the key device, not linked yet. Its functions, by row of table 3:
  0 check_caller   1 append_entry   2 seal_entry   3 on_entry   4 log_key_open, the root
The root calls check_caller and append_entry and names on_entry as its callback; append_entry loads the ring's map and
calls seal_entry. bark sets the map, links the root with what it calls, writes the image and the list of its pieces, and lists
the image: each slot, its bytes, the function and slot that it is a copy of, and the source line that its line record names.

$ bark link logger.tables 4 logger.image logger.pieces
END
"$bark" link logger.tables 4 "$made" "$made.pieces"
echo "(exit $?)"
cat <<'END'

forged.tables is the same logger, but append_entry calls one slot past the start of seal_entry: into the middle of it.

$ bark link forged.tables 4 forged.image
END
"$bark" link forged.tables 4 "$made.forged" 2>&1
echo "(exit $?)"
[ ! -e "$made.forged" ] && echo "No image was written."
cat <<'END'

An examiner asks of an image, with the list of its pieces, whether it is the root linked. Of our own it is:

$ bark examine logger.tables 4 logger.image logger.pieces
END
"$bark" examine logger.tables 4 "$made" "$made.pieces"
echo "(exit $?)"
cat <<'END'

elsewhere.image is another tool's image of the same logger: other functions first, and check_caller twice. It is a yes as well,
and the path that it takes is the source's, whoever made it:

$ bark examine logger.tables 4 elsewhere.image elsewhere.pieces
END
"$bark" examine logger.tables 4 elsewhere.image elsewhere.pieces
echo "(exit $?)"
cat <<'END'

diverted.image is that image, but append_entry calls on_entry where it should call seal_entry: entries would go out unsealed.

$ bark examine logger.tables 4 diverted.image elsewhere.pieces
END
"$bark" examine logger.tables 4 diverted.image elsewhere.pieces
echo "(exit $?)"
rm -f "$made" "$made.pieces"
