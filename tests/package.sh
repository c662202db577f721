#!/usr/bin/env bash
# The package: it is made of what is built, and says the same version everywhere. Unpacked in an empty folder, with an empty
# environment and as another user where this is root, it runs each word as the checkout does. A program in C is linked with both
# forms of each library, and Python loads the shared ones. No package is made of what is not proved, or without `tar`.
. "$(dirname "$0")/common.bash"
if [ -n "${BUILT:-}" ]; then
  build_step
  python3 tests/built.py ruu_judge
  (cd crates/ruu_judge && rt lib < /dev/null > "$work/log" 2>&1) || { tail -n 40 "$work/log"; fail "the judge cannot be built"; }
fi
chmod 755 "$work"
kit=$(dirname "$(rt doc)")

# a kit that does no work: with BUILT=1 all is built
mkdir "$work/path"
cat > "$work/path/rt" << END
#!/bin/sh
case \$1 in
  doc | version) exec $(command -v rt) "\$@" ;;
esac
echo "rt \$* is not to be needed"
exit 1
END
chmod +x "$work/path/rt"
before=$(git status --porcelain 2> /dev/null)
PATH=${BUILT:+$work/path:}$PATH ./ruu package > "$work/out" 2> "$work/err" || fail "no package: status $?"
version=$(cat VERSION)
name=ruu-$version-x86_64-linux
[ "$(tail -n 1 "$work/err")" = "ruu: $PWD/$name.tar.gz" ] && [ ! -s "$work/out" ] || fail 'the package is told otherwise'
[ "$(git status --porcelain 2> /dev/null)" = "$before" ] && ! compgen -G '.package-*' > /dev/null || fail 'a package leaves something else'
[ "$(tar -tzf "$name.tar.gz" | cut -d / -f 1 | sort -u)" = "$name" ] || fail 'the package has more than a folder'

mkdir "$work/place" "$work/home"
chmod 777 "$work/home"
tar -C "$work/place" -xzf "$name.tar.gz"
at=$work/place/$name
# Runs a command in a folder, with nothing in the environment but these variables, and as a user who cannot write there.
as_user() { # folder, VARIABLE=value .., command
  local drop=()
  [ "$(id -u)" -ne 0 ] || drop=(setpriv --reuid=65534 --regid=65534 --clear-groups --no-new-privs)
  (cd "$1" && "${drop[@]}" env -i "${@:2}")
}

# the version, the kit and the licences
said=$(as_user "$at" ./ruu --version)
[ "${said%%$'\n'*}" = "ruu $version" ] || fail "--version says $said"
[ "$(head -n 1 "$at/VERSION")" = "$version" ] && grep -qE '^commit ([0-9a-f]{40}(-dirty)?|unknown)$' "$at/VERSION" || fail 'VERSION says something else'
[ "$(tail -n 1 "$at/VERSION")" = "$(rt version)" ] || fail 'VERSION names another kit'
grep -qx "#define RUU_VERSION \"$version\"" "$at/lib/ruu.h" || fail 'ruu.h says another version'
grep -qx "VERSION = \"$version\"" "$at/lib/ruu.py" || fail 'ruu.py says another version'
grep -qF "\`$name.tar.gz\`" README.md || fail 'README.md names another package'
[ "$(grep -m 1 '^## ' CHANGELOG.md)" = "## $version" ] || fail 'CHANGELOG.md begins with another version'
for it in LICENSE-MIT LICENSE-APACHE licenses/clap/LICENSE-MIT licenses/circular_buffer/LICENSE; do
  [ -s "$at/$it" ] || fail "the package has no $it"
done
for it in "$at"/bin/* "$at"/lib/*.so; do
  newest=$( (exec -a llvm-nm "$kit/toolchain/bin/clang" -D "$it") | grep -o 'GLIBC_[0-9.]*' | sort -uV | tail -n 1)
  printf '%s\n' "${newest:-GLIBC_2.0}" GLIBC_2.34 | sort -CV || fail "${it##*/} wants $newest"
done
echo "the package: $(($(stat -c %s "$name.tar.gz") / 1024)) KB, version $version, glibc 2.34 is enough"

# each word, as in the checkout: what it writes, on a file too, and its status
rows="
run examples/double.s
run examples/sum.s --alone --seed 3
run examples/rows/sum_overflows.s
run examples/sum.s --alone --names
check examples/sum.s --all
chart examples/sum.s --seed 3
commits examples/sum.s
drive examples/sum.s --shuffle 3 --steps 20
listing examples/c/primes.elf
words examples/sum.s
page examples/sum.s OUT
random --seed 7
judge examples/judge/stores.s examples/judge/stores.passed.log
translate examples/translate/hanoi.s
translate examples/translate/hanoi.s --run --alone --seed 3
"
while read -r -a words; do
  [ ${#words[@]} -gt 0 ] || continue
  ./ruu "${words[@]/OUT/$work/wanted.html}" < /dev/null > "$work/wanted" 2> "$work/err"
  wanted=$?
  as_user "$at" ./ruu "${words[@]/OUT/$work/home/page.html}" < /dev/null > "$work/out" 2> "$work/err"
  status=$?
  # a page's place is told
  sed -i "s#$work/home/page.html#$work/wanted.html#" "$work/out"
  [ $status -eq $wanted ] && cmp -s "$work/out" "$work/wanted" || fail "${words[*]}: status $status, and in the checkout $wanted"
done <<< "$rows"
cmp -s "$work/home/page.html" "$work/wanted.html" || fail 'another page'
while read -r word _; do
  [[ $rows == *$'\n'"$word "* ]] || fail "no row of this test runs $word"
  as_user "$at" ./ruu "$word" --help > "$work/out" && cmp -s "$work/out" "docs/help/$word.txt" || fail "no help of $word"
done < <(sed -n "/^table='/,/^'/s/^\([a-z]\+\) /\1 /p" "$at/ruu")
ln -s "$at/ruu" "$work/path/ruu"
as_user "$work/home" PATH="$work/path:/usr/bin:/bin" ruu run "$at/examples/double.s" > "$work/out" 2> "$work/err" && cmp -s "$work/out" examples/double.report \
  || fail 'a link on the path'
for words in prove package '--unproved run examples/sum.s'; do
  # shellcheck disable=SC2086
  as_user "$at" ./ruu $words > "$work/out" 2> "$work/err"
  [ $? -eq 70 ] && [ ! -s "$work/out" ] && [ "$(wc -l < "$work/err")" -eq 1 ] && grep -q 'needs the sources' "$work/err" || fail "$words in a package"
done
echo 'each word runs in it as in the checkout, and by a link'

# the libraries, from C in both forms and from Python
if command -v cc > /dev/null; then
  flags=(-std=c11 -O2 -I "$at/lib" "$at/examples/lockstep/lockstep.c")
  cc "${flags[@]}" -o "$work/static" "$at/lib/libruu_step.a" || fail 'no program with the static library'
  cc "${flags[@]}" -o "$work/shared" -L "$at/lib" -lruu_step -Wl,-rpath,"$at/lib" || fail 'no program with the shared library'
  for it in static shared; do
    "$work/$it" examples/c/primes.elf > "$work/out" 2> "$work/err"
    [ $? -eq 1 ] && grep -q '^instruction 28 at 0x00400024' "$work/out" || fail "the $it library answers otherwise"
  done
  cat > "$work/judge.c" << 'C'
#include "ruu.h"
int main(void)
{
    struct ruu_judge judge = RUU_NO_JUDGE;
    uint64_t line;
    int32_t made = ruu_judge_new((const uint8_t *)"break\n", 6, 1, 1, 0, &line, &judge);
    int32_t told = ruu_judge_event(&judge, (const uint8_t *)"let", 3), after = ruu_judge_event(&judge, (const uint8_t *)"retire", 6);
    ruu_judge_free(&judge);
    return made * 64 + told * 8 + after;
}
C
  cc -std=c11 -O2 -I "$at/lib" -o "$work/static" "$work/judge.c" "$at/lib/libruu_judge.a" || fail 'no program with the static judge'
  cc -std=c11 -O2 -I "$at/lib" -o "$work/shared" "$work/judge.c" -L "$at/lib" -lruu_judge -Wl,-rpath,"$at/lib" || fail 'no program with the shared judge'
  for it in static shared; do
    "$work/$it"
    [ $? -eq 1 ] || fail "the $it judge answers otherwise"
  done
fi
as_user "$at" python3 examples/lockstep/lockstep.py lib/libruu_step.so examples/c/primes.elf --right > "$work/out" 2> "$work/err" \
  && grep -q 'no difference' "$work/out" || fail 'Python does not load the library'
as_user "$at/lib" python3 -B -c '
import ruu
machine = ruu.load("./libruu_step.so")
print(machine.run(ruu.words([0x24010005, 13]), ruu.data(0), ruu.words([0] * 34), ruu.word(ruu.TEXT), 9))' > "$work/out" 2> "$work/err" \
  && [ "$(cat "$work/out")" = '(1, 1)' ] || fail 'ruu.py does not load the library'
as_user "$at/lib" python3 -B -c '
import ruu
judge = ruu.Judge("./libruu_judge.so", "break")
print(judge.event("let"), judge.event("retire"), judge.reason().split("\n")[1])' > "$work/out" 2> "$work/err" \
  && [ "$(cat "$work/out")" = '0 1 0 break is not done' ] || fail 'ruu.py does not load the judge'
echo 'the libraries are linked in both forms, and loaded'

# what is not proved, and without tar
mkdir -p "$work/fresh" "$work/bare"
cp -r ruu prove package crates.txt VERSION docs "$work/fresh"
for crate in crates/*/; do
  mkdir -p "$work/fresh/$crate"
  cp -r "$crate/src" "$work/fresh/$crate"
done
PATH=$work/path:$PATH "$work/fresh/ruu" package > "$work/out" 2> "$work/err"
[ $? -eq 70 ] && grep -q 'is not proved' "$work/err" && ! compgen -G "$work/fresh/*.tar.gz" > /dev/null || fail 'a package of what is not proved'
for it in bash dirname env gzip python3 readlink rt; do
  ln -s "$(command -v $it)" "$work/bare/$it"
done
PATH=$work/bare "$work/fresh/ruu" package > "$work/out" 2> "$work/err"
[ $? -eq 70 ] && [ "$(cat "$work/err")" = 'ruu: there is no tar on the path' ] || fail 'a package without tar'
echo 'no package is made of what is not proved, or without tar'
