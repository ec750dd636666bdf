"""The ordinary commands that `mount-check` runs, each with its status and what it prints.

In the lines, $ED, $VIEW and $HOST are the folders of org.ed, org.view and the host, $FILES is the
service's root, and $OUT the folder that they run in. $N, $B, $D and $V are documents: notes.txt and
book.bin (5,000,000 bytes), which org.ed may write and may read, draft.txt, whose file isn't
there yet, and one that only org.view sees. $NOTES and $BOOK are the files of the first two. $P is
the document of a folder, `project`, which org.ed may write and org.view may read; $PROJECT is that
folder, and on the host $FILES/project. Beside what is seen it holds a link, a pipe and a name that
isn't UTF-8. A line that changes notes.txt begins by what it needs of it.
"""

BOOK = '"$FILES/book.bin"'
MODES = r'''$PYTHON - "$NOTES" <<'END'
import os, sys
path = sys.argv[1]
open(path, "w").write("one\n")
print(open(path).read(), end="")
open(path, "a").write("two\n")
with open(path, "r+") as file:
    file.write("ONE")
    file.seek(0, 2)
    file.write("three\n")
print(open(path, "rb").read())
with open(path, "w+") as file:
    file.write("four")
    file.seek(1)
    print(file.read())
try:
    open(path, "x")
except FileExistsError as error:
    print(type(error).__name__)
END'''
GAPS = r'''$PYTHON - "$NOTES" <<'END'
import os, sys
file = os.open(sys.argv[1], os.O_RDWR | os.O_TRUNC)
os.pwrite(file, b"end", 5)
os.ftruncate(file, 10)
os.fsync(file)
print(os.fstat(file).st_size, os.pread(file, 20, 0), os.pread(file, 5, 100))
END'''
MAPPED = r'''$PYTHON - "$BOOK" "$FILES/book.bin" <<'END'
import mmap, sys
with open(sys.argv[1], "rb") as file, open(sys.argv[2], "rb") as host:
    seen = mmap.mmap(file.fileno(), 0, prot=mmap.PROT_READ)
    print(len(seen), seen[4000000:4500000] == host.read()[4000000:4500000])
END'''
WRITTEN_MAP = r'''printf 0123456789 > "$NOTES"; $PYTHON - "$NOTES" <<'END'
import mmap, sys
with open(sys.argv[1], "r+b") as file:
    seen = mmap.mmap(file.fileno(), 0)
    seen[2:5] = b"abc"
    seen.flush()
END
cat "$FILES/notes.txt"'''
ATTRIBUTES = r'''$PYTHON - "$NOTES" <<'END'
import os, sys
for call, words in ((os.listxattr, []), (os.setxattr, ["user.a", b"b"])):
    try:
        print(call(sys.argv[1], *words))
    except OSError as error:
        print(error.errno)
END'''
SAVED = r'''$PYTHON - "$NOTES" <<'END'
import os, sys
path = sys.argv[1]
with open(path + "~", "x") as file:
    file.write("saved\n")
print(open(path).read(), end="")
os.replace(path + "~", path)
print(open(path).read(), end="")
print(os.listdir(os.path.dirname(path)))
END'''
ANEW = 'echo hello > "$NOTES"; '
ON_HOST = '"$FILES/project"'
# An editor that writes the file where it stands: ed, where it is there.
EDITOR = r'''edit() { if command -v ed > /dev/null; then printf "1s/goodbye/hello/\nw\nq\n" | ed -s "$1"
else text=$(sed s/goodbye/hello/ "$1"); printf "%s\n" "$text" > "$1"; fi; }; edit'''
# What a program does that opens a folder as a project: it looks at all files, changes one where it
# stands, makes another, and comes by what another program changes.
PROJECT_TOOL = r'''$PYTHON - "$PROJECT" "$FILES/project" <<'END'
import os, pathlib, sys
project, host = map(pathlib.Path, sys.argv[1:])
for at, folders, files in sorted(os.walk(project)):
    print(os.path.relpath(at, project), sorted(folders), sorted(files))
print(sorted(str(path.relative_to(project)) for path in project.rglob("*.c")))
with open(project / "src" / "main.c", "r+") as file:
    text = file.read().replace("hello", "goodbye")
    file.seek(0)
    file.write(text)
    file.truncate()
(project / "src" / "deep" / "er" / "new.c").write_text("// new\n")
for name in ("src/main.c", "src/deep/er/new.c"):
    print((host / name).read_text(), end="")
(host / "src" / "late.c").write_text("// late\n")
print((project / "src" / "late.c").read_text(), end="")
for name in ("src/late.c", "src/deep/er/new.c"):
    (host / name).unlink()
print((project / "src" / "late.c").exists(), sorted(os.listdir(project / "src")))
before = os.stat(project / "src")
print(before.st_ino == os.stat(project / "src").st_ino,
      os.path.samefile(project / "src", project / "src" / "deep" / ".."))
END'''

COMMANDS = [
    # What is there
    ('ls "$ED"', 0, "$OWN"),
    ('ls "$HOST"', 0, "$ALL"),
    ('ls "$HOST/by-app"', 0, "org.ed\norg.view"),
    ('ls "$HOST/by-app/org.ed"', 0, "$OWN"),
    ('ls "$VIEW"', 0, "$VIEWED"),
    ('ls -la "$ED/$N" | cut -c1-10', 0, "total 1\ndr-x------\ndr-x------\n-rw-------"),
    ('ls -la "$ED/$B" | tail -n1 | cut -c1-10', 0, "-r--------"),
    ('ls -ld "$ED" | cut -c1-10', 0, "dr-x------"),
    ('ls -A "$ED/$D"', 0, ""),
    ('stat -c "%s %F %h %a" "$NOTES"', 0, "6 regular file 1 600"),
    ('stat -c "%i" "$NOTES"', 0, "$NODE"),
    ('stat -c "%F %a" "$ED/$N"', 0, "directory 500"),
    ('[ "$(stat -c %Y "$NOTES")" = "$(stat -c %Y "$FILES/notes.txt")" ]', 0, ""),
    ('stat -f -c "%S %l" "$ED"', 0, "4096 255"),
    ('df -B4096 --output=avail "$ED" | tail -n1', 0, "1073741824"),
    ('du -b "$BOOK" | cut -f1', 0, "5000000"),
    ('find "$ED" -maxdepth 2 -type f -printf "%f\\n" | sort', 0, "book.bin\nnotes.txt"),
    ('find "$ED" -mindepth 1 -maxdepth 1 -type d | wc -l', 0, "4"),
    ('cd "$ED/$N" && ls', 0, "notes.txt"),
    ('[ -r "$NOTES" ] && [ -w "$NOTES" ] && [ ! -x "$NOTES" ]', 0, ""),
    ('[ -r "$BOOK" ] && [ ! -w "$BOOK" ]', 0, ""),
    # What isn't there for this application
    ('[ -e "$ED/$V" ]', 1, ""),
    ('ls "$ED/$V"', 2, ""),
    ('ls "$ED/ffffffff"', 2, ""),
    ('ls "$ED/by-app"', 2, ""),
    ('cat "$VIEW/$N/notes.txt"', 1, ""),
    ('cat "$ED/$N/book.bin"', 1, ""),
    ('head -c 20000 "$ED/$N/../$B/book.bin" | cmp -n 20000 - ' + BOOK, 0, ""),
    # Reading
    ('cat "$NOTES"', 0, "hello"),
    ('cmp "$BOOK" ' + BOOK, 0, ""),
    ('dd if="$BOOK" bs=777 count=1000 status=none | cmp -n 777000 - ' + BOOK, 0, ""),
    ('cmp <(dd if="$BOOK" bs=1000001 skip=2 count=1 status=none)'
     ' <(dd if=' + BOOK + ' bs=1000001 skip=2 count=1 status=none)', 0, ""),
    ('dd if="$BOOK" bs=1 skip=4999998 status=none | wc -c', 0, "2"),
    ('dd if="$BOOK" iflag=direct bs=4096 count=99 status=none | cmp -n 405504 - ' + BOOK, 0, ""),
    ('cmp <(tail -c 131073 "$BOOK") <(tail -c 131073 ' + BOOK + ')', 0, ""),
    ('head -c 100001 "$BOOK" | cmp -n 100001 - ' + BOOK, 0, ""),
    ('[ "$(sha256sum < "$NOTES")" = "$(sha256sum < "$FILES/notes.txt")" ]', 0, ""),
    ('cp "$BOOK" copy.bin && cmp copy.bin ' + BOOK, 0, ""),
    ('wc -c < "$BOOK"', 0, "5000000"),
    ('grep -c hello "$NOTES"', 0, "1"),
    ('od -An -c "$NOTES"', 0, "   h   e   l   l   o  \\n"),
    ('tar -C "$ED" -cf - "$N" | tar -tf -', 0, "$N/\n$N/notes.txt"),
    (MAPPED, 0, "5000000 True"),
    ('diff -r "$ED/$N" "$HOST/$N"', 0, ""),
    # Writing
    ('echo more >> "$NOTES"; cat "$FILES/notes.txt"', 0, "hello\nmore"),
    ('echo anew > "$NOTES"; cat "$FILES/notes.txt"', 0, "anew"),
    (ANEW + 'truncate -s 3 "$NOTES"; cat "$NOTES"', 0, "hel"),
    ('truncate -s 0 "$NOTES"; stat -c %s "$FILES/notes.txt"', 0, "0"),
    ('truncate -s 100000 "$NOTES"; head -c 100000 /dev/zero | cmp - "$NOTES"', 0, ""),
    ('head -c 370371 ' + BOOK + ' > odd; dd if=odd of="$NOTES" bs=777 status=none;'
     ' cmp odd "$FILES/notes.txt"', 0, ""),
    ('dd if=odd of="$NOTES" bs=123457 status=none; cmp odd "$NOTES"', 0, ""),
    ('dd if=odd of="$NOTES" oflag=direct bs=4096 status=none; cmp odd "$FILES/notes.txt"', 0, ""),
    (ANEW + 'printf EY | dd of="$NOTES" bs=1 seek=1 conv=notrunc status=none; cat "$NOTES"',
     0, "hEYlo"),
    ('cp ' + BOOK + ' "$NOTES" && cmp "$FILES/notes.txt" ' + BOOK, 0, ""),
    (ANEW + 'tee -a "$NOTES" <<< tea; tail -n1 "$FILES/notes.txt"', 0, "tea\ntea"),
    (ANEW + 'echo "on the host" > "$FILES/notes.txt"; cat "$NOTES"', 0, "on the host"),
    (ANEW + 'for line in 1 2 3; do echo $line; done > "$NOTES"; cat "$NOTES"', 0, "1\n2\n3"),
    (ANEW + '(echo a; sync "$NOTES"; echo b) >> "$NOTES"; cat "$NOTES"', 0, "hello\na\nb"),
    (MODES, 0, "one\nb'ONE\\ntwo\\nthree\\n'\nour\nFileExistsError"),
    (GAPS, 0, "10 b'\\x00\\x00\\x00\\x00\\x00end\\x00\\x00' b''"),
    (WRITTEN_MAP, 0, "01abc56789"),
    # Saving by rename
    ('touch "$ED/$N/other.txt" && ls "$ED/$N" && rm "$ED/$N/other.txt" && ls "$ED/$N"', 0,
     "notes.txt\nother.txt\nnotes.txt"),
    (ANEW + SAVED, 0, "hello\nsaved\n['notes.txt']"),
    ('cat "$FILES/notes.txt"', 0, "saved"),
    (ANEW + 'sed -i s/hello/bye/ "$NOTES"; cat "$FILES/notes.txt"; ls -A "$ED/$N"', 0,
     "bye\nnotes.txt"),
    ('touch "$NOTES"', 0, ""),
    ('touch "$ED/$D/draft.txt" && ls "$ED/$D" && stat -c %s "$FILES/draft.txt"', 0, "draft.txt\n0"),
    ('cp "$OUT/odd" "$ED/$D/draft.txt" && cmp odd "$FILES/draft.txt"', 0, ""),
    ('flock "$NOTES" true', 0, ""),
    ('flock -n "$NOTES" flock -n "$NOTES" true', 1, ""),
    # What is refused, and leaves the file as it was
    (ANEW + 'echo x > "$BOOK"', 1, ""),
    ('truncate -s 0 "$BOOK"', 1, ""),
    ('dd if=/dev/zero of="$BOOK" count=1 conv=notrunc status=none', 1, ""),
    ('echo x > "$ED/new.txt"', 1, ""),
    ('mkdir "$ED/$N/sub"', 1, ""),
    ('mkdir "$ED/sub"', 1, ""),
    ('rmdir "$ED/$N"', 1, ""),
    ('rm -f "$NOTES"', 1, ""),
    ('mv "$NOTES" "$ED/$N/moved.txt"', 1, ""),
    ('mv "$NOTES" moved.txt; cat moved.txt "$NOTES"', 0, "hello\nhello"),
    ('mv -f odd "$NOTES"', 1, ""),
    ('ln "$NOTES" "$ED/$N/link"', 1, ""),
    ('ln -s notes.txt "$ED/$N/link"', 1, ""),
    ('mkfifo "$ED/$N/pipe"', 1, ""),
    ('chmod 644 "$NOTES"', 1, ""),
    ('chown 12345 "$NOTES"', 1, ""),
    (ANEW + 'sed -i.bak s/hello/bye/ "$NOTES"', 4, ""),
    ('cp --remove-destination odd "$NOTES"', 1, ""),
    ('fallocate -l 100 "$NOTES"', 1, ""),
    ('"$NOTES"', 126, ""),
    (ATTRIBUTES, 0, "95\n95"),
    ('cat "$NOTES"; ls "$ED"', 0, "hello\n$OWN"),
    # A folder with all that lies below it
    ('ls "$ED/$P"', 0, "project"),
    ('ls -A "$PROJECT"', 0, "Makefile\nread me.txt\nsrc"),
    ('ls -l "$PROJECT" | cut -c1-10', 0, "total 1\n-rw-------\n-rw-------\ndrwx------"),
    ('cd "$PROJECT" && ls -lR | grep -c "^[-d]r"', 0, "8"),
    ('cd "$PROJECT" && ls -R', 0,
     ".:\nMakefile\nread me.txt\nsrc\n\n./src:\ndeep\nmain.c\nutil.h\n\n./src/deep:\ner\n\n"
     "./src/deep/er:\nbig.bin"),
    ('ls -l "$VIEWED_PROJECT/src" | cut -c1-10', 0,
     "total 1\ndr-x------\n-r--------\n-r--------"),
    ('cd "$PROJECT" && find . | sort', 0,
     ".\n./Makefile\n./read me.txt\n./src\n./src/deep\n./src/deep/er\n./src/deep/er/big.bin\n"
     "./src/main.c\n./src/util.h"),
    ('find "$PROJECT" -type d | wc -l', 0, "4"),
    ('find "$PROJECT" -name "*.h" -newermt 2000-01-01 -printf "%P %s %m\\n"', 0,
     "src/util.h 11 600"),
    ('stat -c "%F %a %h" "$PROJECT/src" "$PROJECT/src/main.c"', 0,
     "directory 700 2\nregular file 600 1"),
    ('[ -w "$PROJECT" ] && [ -w "$PROJECT/src" ] && [ ! -w "$ED/$P" ]', 0, ""),
    ('[ -r "$VIEWED_PROJECT/src" ] && [ ! -w "$VIEWED_PROJECT/src" ]', 0, ""),
    ('cd "$PROJECT/src/deep/er" && cd ../.. && pwd -P | tail -c 12', 0, "project/src"),
    ('realpath --relative-to="$PROJECT" "$PROJECT/src/deep/../main.c"', 0, "src/main.c"),
    ('du -sb --apparent-size "$PROJECT" | cut -f1', 0, "2000090"),
    ('cat "$PROJECT/src/main.c"', 0, "int main() { return 0; } // hello"),
    ('grep -rl hello "$PROJECT" | sed "s,.*project/,,"', 0, "src/main.c"),
    ('cmp "$PROJECT/src/deep/er/big.bin" ' + ON_HOST + '/src/deep/er/big.bin', 0, ""),
    ('cp -r "$PROJECT" copied && diff -r copied "$PROJECT" && find copied | wc -l', 0, "9"),
    ('tar -C "$ED/$P" -cf - project | tar -tf - | sort | head -n 3', 0,
     "project/\nproject/Makefile\nproject/read me.txt"),
    ('diff -r "$PROJECT" "$HOST/by-app/org.ed/$P/project"', 0, ""),
    ('diff -r "$PROJECT" "$VIEWED_PROJECT"', 0, ""),
    ('cc -o built "$PROJECT/src/main.c" && ./built', 0, ""),
    (PROJECT_TOOL, 0, ". ['src'] ['Makefile', 'read me.txt']\nsrc ['deep'] ['main.c', 'util.h']\n"
                      "src/deep ['er'] []\nsrc/deep/er [] ['big.bin']\n['src/main.c']\n"
                      "int main() { return 0; } // goodbye\n// new\n// late\n"
                      "False ['deep', 'main.c', 'util.h']\nTrue True"),
    (EDITOR + ' "$PROJECT/src/main.c" && cat ' + ON_HOST + '/src/main.c', 0,
     "int main() { return 0; } // hello"),
    ('echo more >> "$PROJECT/read me.txt" && cat ' + ON_HOST + '/read*', 0, "read me\nmore"),
    ('touch "$PROJECT/src/new" && stat -c %s ' + ON_HOST + '/src/new', 0, "0"),
    ('cp "$PROJECT/Makefile" "$PROJECT/src/deep/copy" && cd ' + ON_HOST
     + ' && cmp Makefile src/deep/copy && rm src/deep/copy src/new; ls "$PROJECT/src"', 0,
     "deep\nmain.c\nutil.h"),
    # (what is made beside the file can't be removed or renamed again)
    ('sed -i s/hello/bye/ "$PROJECT/src/main.c"', 4, ""),
    ('cat "$PROJECT/src/main.c"; ls "$PROJECT/src" | grep -c "^sed"; rm ' + ON_HOST + '/src/sed*', 0,
     "int main() { return 0; } // hello\n1"),
    ('mkdir -p odd.d && cp -r odd.d "$PROJECT/src"', 1, ""),
    ('set -C; echo x > "$PROJECT/Makefile"', 1, ""),
    ('mkdir "$PROJECT/sub"', 1, ""),
    ('rm -f "$PROJECT/Makefile"', 1, ""),
    ('rmdir "$PROJECT/src/deep/er"', 1, ""),
    ('mv "$PROJECT/Makefile" "$PROJECT/src/"', 1, ""),
    ('ln -s Makefile "$PROJECT/link2"', 1, ""),
    ('ls "$PROJECT/link"', 2, ""),
    ('cat "$PROJECT/link"', 1, ""),
    ('timeout 10 cat "$PROJECT/pipe"', 1, ""),
    ('echo x > "$PROJECT/link"; cat ' + BOOK + ' | wc -c', 0, "5000000"),
    ('timeout 10 bash -c "echo x > \\"$PROJECT/pipe\\""', 1, ""),
    ('ls "$PROJECT/.."', 0, "project"),
    ('echo x > "$ED/$P/other"', 1, ""),
    ('echo x > "$VIEWED_PROJECT/src/main.c"', 1, ""),
    ('echo x > "$VIEWED_PROJECT/src/new"', 1, ""),
    ('(ls "$HOST/$P/project/src"; ls "$HOST/by-app/org.view/$P/project/src") | sort -u', 0,
     "deep\nmain.c\nutil.h"),
]
