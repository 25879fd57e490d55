# Files that are missing, of another kind, empty or endless.
# shellcheck shell=bash

test_files() {
    begin
    for name in none none/file frames/file '' directory/none; do
        unharmed 2 "mahyrei: $name: " write "$name" "$marker" frames out
        unharmed 2 "mahyrei: $name: " write "$header" "$name" frames out
        unharmed 2 "mahyrei: $name: " write "$header" "$marker" "$name" out
        unharmed 2 "mahyrei: $name: " read "$header" "$marker" "$name" out
    done
    has 'what is said of a missing file' 'No such file or directory' "$err"
    logged "$said/err" "read header=$header marker=5 frames=- slots=- answer=- place=- status=2"
    unharmed 2 'directory: Is a directory' write directory "$marker" frames out
    unharmed 2 'directory: Is a directory' write "$header" directory frames out
    unharmed 2 'directory: Is a directory' write "$header" "$marker" directory out
    unharmed 2 'directory: Is a directory' read "$header" "$marker" directory out
    unharmed 2 'directory: Is a directory' write "$header" "$marker" frames directory
    unharmed 2 'none/out: its folder cannot be opened: none: No such file' \
        write "$header" "$marker" frames none/out
    unharmed 2 'none/: its folder cannot be opened: none: No such file' \
        write "$header" "$marker" frames none/
    unharmed 2 'frames/out: its folder cannot be opened: frames: Not a directory' \
        write "$header" "$marker" frames frames/out
    unharmed 2 ': No such file' write "$header" "$marker" frames ''
    logged "$said/err" 'write header=- marker=- frames=- slots=- answer=- place=- status=2'
    refused 1 0 write empty "$marker" frames out
    refused 8 0 write "$header" empty frames out
    refused 8 0 write "$header" "$marker" empty out
    refused 8 0 read "$header" "$marker" empty out
    # An input without an end is refused like any other that is too long.
    refused 1 0 write /dev/zero "$marker" frames out
    refused 8 0 write "$header" /dev/zero frames out
    refused 8 0 write "$header" "$marker" /dev/zero out
    refused 8 0 read "$header" "$marker" /dev/zero out
    logged "$said/err" "read header=$header marker=5 frames=- slots=182128721 answer=8 place=0 status=1"
}
