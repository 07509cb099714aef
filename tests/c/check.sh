#!/bin/sh
# tests/c/check.sh: tests build/libmpslp.a and build/libmpslp.so.0 from C and C++. It needs gcc, g++, valgrind and python3,
# and the program, which shows models as the library has to.
set -eu
cd "$(dirname "$0")/../.."
tried=build/tests
warn="-Wall -Wextra -Werror -pedantic"
checked="valgrind -q --error-exitcode=9 --leak-check=full --show-leak-kinds=all"
mpslp=crates/mpslp/out/mpslp
rm -rf $tried
mkdir -p $tried

die() {
    echo "$*" >&2
    exit 1
}

test -x $mpslp || die "the program is not built: make run"

# The shared library exports the calls of the header, and nothing else.
sed -n 's/^\(MPSLP_MUST_USE mpslp_status\|MPSLP_MUST_USE bool\|double\|const char\|MPSLP_INLINE [^(]*[ *]\) *\*\{0,1\}\(mpslp_[a-z0-9_]*\)(.*/\2/p' include/mpslp.h | sort > $tried/declared
nm -D --defined-only build/libmpslp.so.0 | sed -n 's/^[0-9a-f]* T \([a-z0-9_]*\).*/\1/p' | sort > $tried/exported
test -s $tried/declared || die "the header declares no call"
cmp $tried/declared $tried/exported || die "the shared library exports other calls than the header declares"
# So does the static one, and a program may define the names of the kit's heap.
nm -g --defined-only build/libmpslp.a | sed -n 's/^[0-9a-f]* [A-Z] \(.*\)/\1/p' | sort > $tried/defined
cmp $tried/declared $tried/defined || die "the static library defines other names than the header declares"
gcc -std=c99 $warn -Iinclude -o $tried/own-heap tests/c/own_heap.c build/libmpslp.a
$tried/own-heap || die "a program with names of the kit's heap"

# Each argument of each call arrives at the proved call, and each mistake in what hands them on is found.
python3 tests/c/arguments.py --wrong || die "an argument of a call"

# Header and crate agree, in C and in C++, with either library.
gcc -std=c99 $warn -Iinclude -o $tried/layout tests/c/layout.c build/libmpslp.a
g++ -x c++ $warn -Iinclude -o $tried/layout-shared tests/c/layout.c -x none -Lbuild -lmpslp
gcc -std=c99 $warn -O2 -Iinclude -o $tried/program tests/c/program.c build/libmpslp.a
gcc -std=c99 $warn -g -fsanitize=address,undefined -fno-sanitize-recover=all -Iinclude -o $tried/program-sanitized tests/c/program.c build/libmpslp.a
gcc -std=c99 $warn -g -Iinclude -o $tried/failing tests/c/failing_allocations.c build/libmpslp.a -Wl,--wrap=malloc,--wrap=realloc
# The inline calls: as C and as C++, inlined and exported, and with each warning that is an error for somebody.
version=$(cat VERSION)
gcc -std=c99 $warn -Wconversion -O2 -Iinclude -o $tried/header tests/c/header.c build/libmpslp.a
gcc -std=c99 $warn -g -fsanitize=address,undefined -fno-sanitize-recover=all -Iinclude -o $tried/header-sanitized tests/c/header.c build/libmpslp.a
gcc -std=c99 $warn -fno-inline -Iinclude -o $tried/header-shared tests/c/header.c -Lbuild -lmpslp
g++ -std=c++11 -x c++ $warn -Wold-style-cast -Iinclude -o $tried/header-cpp tests/c/header.c -x none -Lbuild -lmpslp
for program in header header-sanitized header-shared header-cpp; do
    LD_LIBRARY_PATH=build $tried/$program "$version" || die "an inline call of $program"
done
python3 tests/c/decimals.py $tried/header || die "the decimal of a double"
# Numbers and doubles in each rounding mode, as they are in the library, and compiled again with checks.
for compiler in gcc clang; do
    command -v $compiler > /dev/null || { echo "not tried with $compiler, which is not installed"; continue; }
    for options in -O0 -O2 "-O2 -ffast-math"; do
        $compiler -std=c99 $warn $options -Iinclude -o $tried/numbers tests/c/numbers.c build/libmpslp.a -lm
        $tried/numbers 20000 || die "a number, by $compiler $options"
    done
    for options in -O1 "-O1 -ffast-math"; do
        $compiler -std=c99 $warn $options -g -fsanitize=address,undefined -fno-sanitize-recover=all -Iinclude -o $tried/numbers tests/c/numbers.c lib/doubles.c \
            build/libmpslp.a -lm
        $tried/numbers 5000 || die "a number, checked, by $compiler $options"
    done
done

# What the compiler has to warn of: a format that is none, and a status that is ignored.
for wrong in 'return mpslp_canonical(MPSLP_MAXIMIZE, MPSLP_LP, text.bytes, 0, &text, &fault) == MPSLP_OK' \
             'mpslp_canonical(MPSLP_MPS, MPSLP_LP, text.bytes, 0, &text, &fault); return 0'; do
    echo "#include <mpslp.h>
int main(void) { mpslp_text text = MPSLP_NO_TEXT; mpslp_fault fault = MPSLP_NO_FAULT; $wrong; }" > $tried/wrong.c
    ! gcc -std=c99 $warn -Iinclude -c -o $tried/wrong.o $tried/wrong.c 2> $tried/warning || die "no warning of: $wrong"
    grep -Eq 'enum-conversion|unused-result' $tried/warning || die "another warning of: $wrong"
done
! gcc -std=c99 -fshort-enums -Iinclude -c -o $tried/wrong.o tests/c/layout.c 2> $tried/warning || die "short enumerations compile"

# Models made in C: as C and as C++, with either library.
gcc -std=c99 $warn -g -fsanitize=address,undefined -fno-sanitize-recover=all -Iinclude -o $tried/arrays-sanitized tests/c/arrays.c build/libmpslp.a
g++ -std=c++11 -x c++ $warn -Wold-style-cast -Iinclude -o $tried/arrays-cpp tests/c/arrays.c -x none -Lbuild -lmpslp
$tried/arrays-sanitized || die "a model made in C"
LD_LIBRARY_PATH=build $checked $tried/arrays-cpp || die "a model made in C++"

# The same results with each seed of the hashes, and where the system has no random bits; and the time of names that collide.
gcc -std=c99 $warn -O2 -Iinclude -o $tried/seeds tests/c/seeds.c build/libmpslp.a
gcc -std=c99 $warn -O2 -Iinclude -o $tried/seeds-shared tests/c/seeds.c -Lbuild -lmpslp
python3 tests/c/colliding.py 4000 $tried
for program in seeds seeds-shared; do
    LD_LIBRARY_PATH=build $tried/$program examples/*.mps examples/*.lp vectors/*.mps vectors/*.lp || die "a seed, by $program"
    for format in mps lp; do
        LD_LIBRARY_PATH=build $tried/$program growth $tried/colliding.$format $tried/alike.$format || die "names that collide, by $program"
    done
done

# Each call, on a stack of 256 KiB.
gcc -std=c99 $warn -Iinclude -pthread -o $tried/stack tests/c/stack.c build/libmpslp.a
for input in examples/*.mps examples/*.lp; do
    $tried/stack "${input##*.}" "$input" || die "$input on a small stack"
done

for tool in "" "$checked"; do
    $tool $tried/layout || die "the layout, or a call with a wrong argument"
    LD_LIBRARY_PATH=build $tool $tried/layout-shared || die "the layout in C++, or a call with a wrong argument"
done

# Every example, in both formats, with its canonical text.
for input in examples/*.mps examples/*.lp; do
    form=${input##*.}
    model=${input%.*}
    for to in mps lp; do
        wanted=${model%.canonical}.canonical.$to
        test -f "$wanted" || continue
        for program in $tried/program $tried/program-sanitized "$checked $tried/program"; do
            $program canon "$form" "$to" "$input" | cmp - "$wanted" || die "$input to $to"
            $program store "$form" "$to" "$input" | cmp - "$wanted" || die "$input stored as $to"
        done
    done
    case $model in *.canonical) $tried/program is "$form" "$input" || die "$input is canonical" ;; esac
    $mpslp show "$form" "$input" > $tried/shown
    for program in $tried/program $tried/program-sanitized "$checked $tried/program"; do
        $program show "$form" "$input" | cmp - $tried/shown || die "$input shown"
    done
done
! $tried/program is mps examples/small.mps || die "examples/small.mps is not canonical"

# Numbers as doubles.
for program in $tried/program $tried/program-sanitized; do
    python3 tests/c/doubles.py $program || die "a double"
done

# The conformance suite, on plain and on checked builds: each text, each fault, each comparison, and each model that is shown.
python3 tests/program/vectors.py --program $tried/program
for format in mps lp; do
    $tried/failing $format examples/small.$format || die "an allocation that fails, in $format"
    $checked $tried/failing $format examples/small.$format > /dev/null || die "an allocation that fails, in $format, by valgrind"
done
for input in vectors/*.mps vectors/*.lp; do
    for to in mps lp; do
        for call in canon store; do
            status=0
            $tried/program-sanitized $call "${input##*.}" $to "$input" > $tried/$call-text 2> $tried/$call-error || status=$?
            test $status -le 2 || die "$input: $(cat $tried/$call-error)"
        done
        cmp $tried/canon-text $tried/store-text && cmp $tried/canon-error $tried/store-error || die "$input stored as $to"
    done
    status=0
    $tried/program-sanitized show "${input##*.}" "$input" > $tried/text 2> $tried/fault || status=$?
    test $status -le 2 || die "$input: $(cat $tried/fault)"
    $mpslp show "${input##*.}" "$input" 2>&1 | cmp - "$(test $status = 0 && echo $tried/text || echo $tried/fault)" || die "$input shown"
done
echo "the library returns what the program prints"
