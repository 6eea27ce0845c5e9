# Installing: every file in its place, a C program built by them, and the manual page.
expect_part 0 'bin/mp, lib/libmirepillar.a' "$root/tools/install" prefix
expect 0 0 '0 done' prefix/bin/mp check bench
expect 2 '' 'usage: tools/install PREFIX' "$root/tools/install"
expect 2 '' 'cannot be made a folder' "$root/tools/install" bench/below
expect 2 '' 'has a space in it, which a pkg-config file cannot say' "$root/tools/install" 'a prefix'
if command -v pkg-config >/dev/null 2>&1; then
    flags=$(PKG_CONFIG_PATH=prefix/lib/pkgconfig pkg-config --cflags --libs mirepillar)
else
    flags="-Iprefix/include -Lprefix/lib -lmirepillar"
fi
# The flags are several words.
cc -std=c11 -Wall -Werror -o checked "$root/examples/check.c" $flags
expect 0 '0 bench: consistent' '' ./checked bench
for command in check rename land repair tree make explore demo soak help; do
    grep -q "mp $command" prefix/share/man/man1/mp.1 || wrong "the manual page has no mp $command"
done
for option in exchange 'no\\-replace' user group groups cwd 'old\\-start' 'new\\-start' now dot html save seed seconds images; do
    grep -q -- "\\\\-\\\\-$option" prefix/share/man/man1/mp.1 || wrong "the manual page has no option --$option"
done
if command -v man >/dev/null 2>&1; then
    LC_ALL=C.UTF-8 MANROFFSEQ='' man --warnings -E UTF-8 -l -Tutf8 prefix/share/man/man1/mp.1 >manual 2>err
    [ ! -s err ] || wrong "the manual page: $(cat err)"
fi
