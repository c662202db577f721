#!/usr/bin/env bash
# Pages of runs: what is in the pages of three examples is what `ruu drive` tells by other questions, and no page asks for anything
# from elsewhere. Where headless Chromium is, each page is stepped through in it by keys, at several widths: what stands there
# is compared too, each text can be read, none is cut or lies over another, and the console says nothing. Mistakes have their words
# and their status.
. "$(dirname "$0")/common.bash"
build run drive
drive=crates/drive/out/drive

make_page() { # words
  python3 -B page/page.py $drive "$@" > "$work/out" 2> "$work/err"
  status=$?
}

page() { # listing, order, options
  local listing=$1 order=(--shuffle "$2")
  [ "$2" != alone ] || order=(--alone)
  [ ! -e "$2" ] || order=(--script "$2")
  shift 2
  make_page "$listing" "$work/page.html" "${order[@]}" "$@"
  [ $status -eq 0 ] || fail "no page of $listing"
}

# What a browser makes of a page. The console has to be silent.
browse() { # page
  timeout 300 chromium --headless --no-sandbox --disable-gpu --enable-logging=stderr --virtual-time-budget=60000 \
    --user-data-dir="$work/browser" --window-size=1960,1200 --dump-dom "file://$1" > "$work/dom" 2> "$work/console"
  ! grep -a CONSOLE "$work/console" || fail "the browser's console says something"
}

# What a browser showed of the page at a width, into the file `seen`.
show() { # width
  local height=800
  [ "$1" -ne 1024 ] || height=768
  [ "$1" -ne 1920 ] || height=1080
  cp "$work/page.html" "$work/stepped.html"
  { echo '<script>' && cat tests/page.js && echo '</script>'; } >> "$work/stepped.html"
  printf '<!doctype html><body style="margin:0"><iframe src="stepped.html" style="width:%spx;height:%spx;border:0"></iframe><pre id="told"></pre>
    <script>onmessage = event => { document.getElementById("told").textContent = event.data; };</script>' "$1" "$height" > "$work/frame.html"
  browse "$work/frame.html"
  python3 - "$work/dom" "$work/seen" << 'END' || fail "the browser at a width of $1"
import html, json, re, sys
found = re.search(r'<pre id="told">(.*?)</pre>', open(sys.argv[1], encoding="utf-8").read(), re.S)
told = json.loads(html.unescape(found[1])) if found and found[1] else sys.exit("the browser told nothing")
json.dump(told["seen"], open(sys.argv[2], "w", encoding="utf-8"))
sys.exit("\n".join(told["faults"][:10]) if told["faults"] else 0)
END
}

browser=false
! command -v chromium > /dev/null || browser=true

checked() { # listing, order, options
  page "$@"
  python3 -B tests/page.py "$1" "$work/page.html" - "${@:2}" || fail "the page of $1"
  "$browser" || return 0
  for width in $widths; do
    show $width
    python3 -B tests/page.py "$1" "$work/page.html" "$work/seen" "${@:2}" > "$work/told" || { cat "$work/told"; fail "$1 at a width of $width"; }
  done
  echo "$1: as shown at ${widths// /, } pixels"
}

widths='1920 1280 1024 500 360'
checked examples/wrong_path.s 5 --ruu-size 8 --lsq-size 8 --bpred nottaken
checked examples/forwarding.s 3 --ruu-size 16 --lsq-size 4 --bpred bimod
checked examples/drive/square.s 2 --ruu-size 4 --lsq-size 4 --bpred taken
"$browser" || echo 'without Chromium the pages were left out that a browser shows'

# scripts of `drive`: with several calls in one command, and with a rest
widths='1280 500'
checked examples/drive/relet.s examples/drive/relet.txt --ruu-size 4
checked examples/double.s examples/drive/steps.txt --ruu-size 2 --bpred nottaken
printf '%s\n' turn 'claim b 0  # by a unit in small letters' table 'finish B 0' commit rest '' 'claim A 7' 'turn 0x00400000' 'until 0x00400014' quit turn > "$work/script.txt"
checked examples/sum.s "$work/script.txt" --ruu-size 8
printf '%s\n' 'step 9' rest renew turn commit > "$work/script.txt"
checked examples/double.s "$work/script.txt"
# the order of the unit on one thread
checked examples/wrong_path.s alone --ruu-size 32 --bpred nottaken

# what a shuffle chose, as it was written, is a script
$drive drive examples/sum.s --ruu-size 8 --shuffle 7 --steps 100 < /dev/null > "$work/told.txt"
page examples/sum.s "$work/told.txt"
python3 -B tests/page.py examples/sum.s "$work/page.html" - 7 --ruu-size 8 --lsq-size 8 --bpred bimod || fail 'a transcript is no script'

# a part of the steps, and the steps up to an event
whole=$work/whole.html
part() { # options
  make_page examples/wrong_path.s "$work/page.html" --bpred nottaken "$@"
  [ $status -eq 0 ] || fail "no page with $*"
  python3 -B tests/page.py "$work/page.html" "$whole" || fail "a page with $*"
}
page examples/wrong_path.s 5 --bpred nottaken
mv "$work/page.html" "$whole"
part --shuffle 5 --from 20 --steps 30
part --shuffle 5 --from 170
part --shuffle 5 --steps 1
part --shuffle 5 --until misprediction
grep -q ': 40 steps, shuffle 5$' "$work/out" || fail 'a page up to a misprediction has other steps'
part --shuffle 5 --until misprediction --from 45
up_to() { # kind, first words of the answer, listing
  make_page "$3" "$work/page.html" --until "$1"
  [ $status -eq 0 ] || fail "no page up to $1"
  number=$(sed -n 's/.*, shuffle //p' "$work/out")
  python3 -B tests/page.py "$3" "$work/page.html" - "$number" --ruu-size 8 --lsq-size 8 --bpred bimod || fail "the page up to $1"
  python3 -B - "$work/page.html" "$2" << 'END' || fail "the page up to $1 ends otherwise"
import re, sys
sys.path.insert(0, "tests")
sys.argv, (file, form) = [""], sys.argv[1:]
import page
answers = [step["answer"] for step in page.read_page(file)[0]["steps"]]
sys.exit([bool(re.match(form, answer)) for answer in answers] != [False] * (len(answers) - 1) + [True])
END
}
up_to blocked 'Blocked ' examples/drive/past_a_store.s
up_to misprediction 'Finished .* MISS ' examples/wrong_path.s
up_to stale 'Stale ' examples/wrong_path.s
echo 'scripts, transcripts, the order of one thread, and parts of a run'
# colours, a quiz, and two runs side by side: each is the page that it would be alone, and a key does the same in both
python3 -B tests/colours.py || fail 'colours that are hard to tell apart'
page examples/forwarding.s 3 --quiz
! $browser || show 1280
page examples/wrong_path.s 5 --bpred nottaken --from 40 --steps 30
! $browser || show 1280
make_page examples/forwarding.s "$work/pair.html" --shuffle 3 --beside 7 --bpred taken
[ "$(cat "$work/out")" = "$work/pair.html: 63 steps beside 61" ] || fail 'two runs are told otherwise'
for number in 3 7; do
  page examples/forwarding.s $number --bpred taken
  mv "$work/page.html" "$work/$number.html"
done
if $browser; then
  cat >> "$work/pair.html" << 'END'
<pre id="told"></pre><script>setTimeout(() => {
  for (const key of ["ArrowRight", "ArrowRight", "r"]) document.body.dispatchEvent(new KeyboardEvent("keydown", { key, bubbles: true }));
  document.getElementById("told").textContent = views().map(view => view.document.getElementById("count").textContent).join(", ");
}, 3000);</script>
END
  browse "$work/pair.html"
fi
python3 -B - "$work/pair.html" "$work/3.html" "$work/7.html" "$browser" "$work/dom" << 'END' || fail 'two runs side by side'
import html, re, sys
sys.path.insert(0, "tests")
(pair, *alone, has_browser, dom), sys.argv = sys.argv[1:], [""]
import page
text, pages = open(pair, encoding="utf-8").read(), [open(it, encoding="utf-8").read() for it in alone]
page.check_alone(re.sub("http-equiv", "", html.unescape(text)).replace("srcdoc", ""))
if [html.unescape(it) for it in re.findall(r'srcdoc="([^"]*)"', text)] != pages:
    sys.exit("a page beside another is not the page alone")
runs = [page.read_page(it)[0] for it in alone]
ends = [[sorted(run["steps"][-1][part].items()) for part in ("registers", "memory")] for run in runs]
if ends[0] != ends[1] or [it["answer"] for it in runs[0]["steps"]] == [it["answer"] for it in runs[1]["steps"]]:
    sys.exit("two orders of steps have not the same end")
if has_browser == "true":
    retired = [next(at for at, step in enumerate(run["steps"]) if at > 2 and step["kind"] == "retire") for run in runs]
    wanted = ", ".join(f"{at} / {len(run['steps']) - 1}" for at, run in zip(retired, runs))
    if f'<pre id="told">{wanted}</pre>' not in open(dom, encoding="utf-8").read():
        sys.exit(f"keys do not lead to the steps {wanted}")
END
echo 'the colours of the states, a quiz and two runs side by side'

# what goes wrong
says() { # status, first line on standard error, words
  local wanted=$1 line=$2
  shift 2
  make_page "$@"
  [ "$status" -eq "$wanted" ] && [ "$(head -n 1 "$work/err")" = "$line" ] && [ ! -s "$work/out" ] || fail "page $*: status $status"
}
says 3 'error: page takes two files: the listing, and the page that is written' examples/sum.s
says 3 'error: page takes two files: the listing, and the page that is written' examples/sum.s a b
says 3 'error: there is no option --shuffles' examples/sum.s "$work/x.html" --shuffles 3
says 3 'error: --shuffle takes a number from 0 to 18446744073709551615' examples/sum.s "$work/x.html" --shuffle=18446744073709551616
says 3 'error: --ruu-size takes 2, 4, 8, 16 or 32' examples/sum.s "$work/x.html" --ruu-size 64
says 3 'error: --lsq-size is at most --ruu-size' examples/sum.s "$work/x.html" --ruu-size 4 --lsq-size 8
says 3 'error: --bpred takes nottaken, taken or bimod' examples/sum.s "$work/x.html" --bpred gshare
says 3 'error: --shuffle is given twice' examples/sum.s "$work/x.html" --shuffle 1 --shuffle 2
says 3 'error: --shuffle takes a value' examples/sum.s "$work/x.html" --shuffle
says 3 'error: --until ends one run, and takes no --beside' examples/sum.s "$work/x.html" --until stale --beside 3
says 3 'error: --alone takes no value' examples/sum.s "$work/x.html" --alone=1
says 3 'error: --shuffle and --alone are two orders of steps: one of them can be given' examples/sum.s "$work/x.html" --alone --shuffle 3
says 3 'error: --until takes blocked, misprediction or stale' examples/sum.s "$work/x.html" --until never
says 3 'error: --from takes a number from 0 to 100000' examples/sum.s "$work/x.html" --from -1
says 3 'error: --from is past the end: the run has the steps 0 to 12' examples/double.s "$work/x.html" --from 13
says 1 'ruu: no stale result in steps 0 to 1999 of 200 shuffles' examples/double.s "$work/x.html" --until stale
says 1 'ruu: no blocked load in steps 0 to 1999 of shuffle 4' examples/double.s "$work/x.html" --until blocked --shuffle 4
printf 'turn\nfly away\n' > "$work/script.txt"
says 1 "ruu: $work/script.txt: line 2: unknown word; help lists the commands" examples/sum.s "$work/x.html" --script "$work/script.txt"
says 3 'error: OUT.html names the file of the script' examples/sum.s "$work/script.txt" --script "$work/script.txt"
says 5 'ruu: nowhere.txt: No such file or directory' examples/sum.s "$work/x.html" --script nowhere.txt
says 3 'error: the listing is read twice, and FILE cannot be -' - "$work/x.html"
says 3 'error: OUT.html takes a file' examples/sum.s -
says 5 'ruu: nowhere.s: No such file or directory' nowhere.s "$work/x.html"
says 5 'ruu: -h: No such file or directory' -- -h "$work/x.html"
says 5 "ruu: $work/no/x.html: the page cannot be written: No such file or directory" examples/sum.s "$work/no/x.html"
says 5 "ruu: $work: the page cannot be written: Is a directory" examples/sum.s "$work"
says 5 'ruu: /dev/full: the page cannot be written: No space left on device' examples/sum.s /dev/full
cp examples/sum.s "$work/own.s"
ln -s own.s "$work/link.s"
says 3 'error: OUT.html names the file of the listing' "$work/own.s" "$work/link.s"
cmp -s examples/sum.s "$work/own.s" || fail 'the listing was overwritten'
$drive drive tests/listings/fault.s < /dev/null > "$work/fault"
says 2 "tests/listings/fault.s: $(cat "$work/fault")" tests/listings/fault.s "$work/x.html"
[ ! -e "$work/x.html" ] || fail 'a mistake left a page'
for words in 'page --help' 'help page'; do
  # shellcheck disable=SC2086
  ./ruu $words | cmp -s - docs/help/page.txt || fail "ruu $words: another help"
done
echo 'what goes wrong has its word and its status, and no page overwrites the listing'
