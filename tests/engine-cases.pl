# The cases of tests/engines: patterns, each in four spellings (ours, Perl's without and with captures, glibc's), with lines. All small patterns over two bytes (`small_cases`) and random
# ones of every construct within the limits (`random_case`).
#
# The spellings differ in leaves, groups and counts. For Perl every byte is an escape, so that none is special, every class and `.` lists ranges of escapes, so that
# no Unicode rule enters, and a group captures nothing. For glibc, with the extended syntax in the C locale, a special byte stands after `\`, every class and `.` is
# a bracket expression of its bytes, and the empty sequence is `()`.
#
# A lazy repeat is Perl's own; to glibc, which has none, it is the plain repeat, as to the paper's POSIX reading.
#
# Any part may be under any sign, one that matches the empty string too. At an empty turn Perl leaves the repeat, as the paper does. It leaves a count `{m,n}` as
# well, which the paper only writes out: `(|a|aaa){0,2}(ab|bc)` on `aaabc` has the greedy span 0 5 by the paper, 0 4 by Perl's count. So for Perl such a count is
# written out. `?`, `{m}` and `{m,}` are not: in the first m turns Perl does not look for an empty one, and where the last of these is empty, the turns that the
# paper adds end where Perl's other choices for it do, in the same order. To glibc, as to the paper, an empty turn adds nothing: no POSIX span is left out.
#
# Fields are compared where Perl's captures are the paper's fields by definition: at most eight brackets, no repeat over a part that matches the empty string, and no
# repeat of which a turn may leave out a bracket inside, since what such a bracket keeps is Perl's own affair. Nor are they where a bracket has a repeat inside another
# repeat: going back over such a turn Perl loses what it had caught, as in `((a){1,1}){0,2}a{3}` on aaaa, where the inner bracket took 0 1.
use strict;
use warnings;
use List::Util qw(max min product sum0);

use constant {
    LINES => 31,      # of a pattern: as many as there are over two bytes up to length 4
    LONGEST => 70,    # bytes of a line: patterns of weight 64 can match
    WAYS => 1_000,    # in which a part matches the empty string: regcomp walks them all, and takes a minute for `(()?){23,}`
};
my $SPECIAL = qr/[\\|()\[\]{}*+?.^\$]/;
my @BYTES = map { chr } 0 .. 255;
# The named sets as ranges, by the POSIX locale over ASCII, so that no engine's table and no locale has a say.
my %SETS = (
    alpha => [[65, 90], [97, 122]], digit => [[48, 57]], alnum => [[48, 57], [65, 90], [97, 122]], upper => [[65, 90]], lower => [[97, 122]],
    xdigit => [[48, 57], [65, 70], [97, 102]], space => [[9, 13], [32, 32]], punct => [[33, 47], [58, 64], [91, 96], [123, 126]],
);
my @NAMES = sort keys %SETS;
# Any byte of a pattern's text or of a line: 10 ends it.
my @ANY = @BYTES[0 .. 9, 11 .. 255];
# A pattern's own bytes, which its leaves and lines are made of, are of one of these kinds or two.
my @KINDS = (['a' .. 'c'], ['a' .. 'c'], [qw(a B 7 _ z)], [split //, '\\|()[]{}*+?.^$'], [split //, ']-[^\\:='], [@BYTES[0 .. 9, 11 .. 31, 127]],
    [@BYTES[128 .. 255]], [' ', "\t", "\r", 'x', '.', '~'], \@ANY);
my @own;
# How readily a sequence of the pattern is empty.
my $blank;

sub pick { return $_[rand @_] }

# ---- Parts of a pattern: kind, three spellings, in how many ways it matches the empty string without a turn of a loop, the most such ways of it or a part of it,
# constructs that its text does not show, weight, a sub that gives a sample of what it matches, how many brackets it has, whether a match may leave one out, whether
# one has a repeat, and whether a later turn may leave one out or has such a repeat inside.

# A set for glibc: `]` first, `-` last, `^` before it; the rest ascends, so that no `[` stands before `.`, `:` or `=`. Byte 0, which regcomp cannot be given, is in
# a set by not being listed; to hold all bytes or none takes two leaves. glibc's own `.` would not do: it takes 10 and not 0.
sub bracket_expression {
    my ($members) = @_;
    return $members =~ s/($SPECIAL)/\\$1/r if $members =~ /^[^\0]\z/;
    return '(a^)' if $members eq '';
    my $not = $members =~ /\0/ ? '^' : '';
    my $listed = $not ? join('', grep { index($members, $_) < 0 } @BYTES) : $members;
    return '(a|[^a])' if $listed eq '';
    return '[-^]' if !$not && $listed eq '-^';
    my ($first, $caret, $last) = map { index($listed, $_) < 0 ? '' : $_ } ']', '^', '-';
    return "[$not$first" . $listed =~ tr/]^\-//dr . "$caret$last]";
}

# The text's leaf holds the bytes of the ranges or, negated, all others. A sample is mostly of the pattern's own bytes, and empty where no line can match.
sub leaf {
    my ($text, $negated, @ranges) = @_;
    my $escapes = join '', map { sprintf '\x{%x}-\x{%x}', @$_ } @ranges;
    my $listed = join '', map { @BYTES[$_->[0] .. $_->[1]] } @ranges;
    my $members = join '', grep { index($listed, $_) >= 0 xor $negated } @BYTES;
    my $own = join '', grep { index($members, $_) >= 0 } @own;
    my $others = $members =~ tr/\n//dr;
    return {
        kind => 'leaf', ours => $text, posix => bracket_expression($members),
        map({ $_ => $negated ? "[^$escapes]" : length $listed == 1 ? sprintf('\x{%x}', ord $listed) : "[$escapes]" } qw(perl caught)), empty => 0, widest => 0, has => [],
        weight => 1, brackets => 0, skips => 0, again => 0, left => 0, sample => sub { my $from = $own ne '' && rand() < 0.8 ? $own : $others; substr $from, rand length $from, 1 },
    };
}

sub byte {
    my ($byte) = @_;
    return leaf($byte =~ s/($SPECIAL)/\\$1/r, 0, [ord $byte, ord $byte]);
}

sub spellings {
    my ($by, @parts) = @_;
    return map { my $for = $_; $for => join $by, map { $_->{$for} } @parts } qw(ours perl caught posix);
}

# What the brackets of parts come to together; `either` where only one of the parts is in a match.
sub bracketing {
    my ($either, @parts) = @_;
    my $brackets = sum0(map { $_->{brackets} } @parts);
    my %some = map { my $what = $_; $what => !!grep { $_->{$what} } @parts } qw(skips again left);
    return (%some, brackets => $brackets, $either && @parts > 1 ? (skips => $brackets > 0) : ());
}

sub sequence {
    my @atoms = @_;
    my @ways = map { $_->{empty} || () } @atoms;
    return {
        kind => 'sequence', @atoms ? spellings('', @atoms) : (ours => '', perl => '', caught => '', posix => '()'), bracketing(0, @atoms), empty => @ways == @atoms && product(@ways),
        widest => max(product(@ways), map { $_->{widest} } @atoms), has => [map { @{$_->{has}} } @atoms],
        weight => sum0(map { $_->{weight} } @atoms) || 1, sample => sub { join '', map { $_->{sample}->() } @atoms },
    };
}

sub alternation {
    my @sequences = @_;
    my $ways = sum0(map { $_->{empty} } @sequences);
    return {
        kind => 'alternation', spellings('|', @sequences), bracketing(1, @sequences), empty => $ways, widest => max($ways, map { $_->{widest} } @sequences),
        has => [map { @{$_->{has}} } @sequences], weight => sum0(map { $_->{weight} } @sequences), sample => sub { pick(@sequences)->{sample}->() },
    };
}

sub group {
    my ($part) = @_;
    return {
        %$part, kind => 'group', ours => "($part->{ours})", perl => "(?:$part->{perl})", caught => "($part->{caught})", posix => "($part->{posix})",
        brackets => 1 + $part->{brackets},
    };
}

# Without a most there is no bound. A lazy repeat has a `?` after its sign.
sub repeat {
    my ($atom, $sign, $least, $most, $lazy) = @_;
    my $mark = $lazy ? '?' : '';
    my $ways = sum0(map { $atom->{empty} ** $_ } $least .. $most // $least);
    # Perl takes no leading zero in a count.
    my $plain = $sign =~ s/\b0(?=\d)//gr;
    # The optional turns of a count that is written out.
    my $more = $atom->{empty} && defined $most && $most > 1 ? $most - $least : 0;
    my $perl = $more ? $atom->{perl} x $least . "(?:$atom->{perl}" x $more . ")?$mark" x $more : "$atom->{perl}$plain$mark";
    my $sample = sub {
        my $times = defined $most && rand() < 0.2 ? $most : $least;
        $times++ while (!defined $most || $times < $most) && rand() < 0.6;
        return join '', map { $atom->{sample}->() } 1 .. $times;
    };
    return {
        kind => 'repeat', ours => "$atom->{ours}$sign$mark", perl => $perl, caught => "$atom->{caught}$plain$mark", posix => $atom->{posix} . $plain,
        brackets => $atom->{brackets}, skips => $least ? $atom->{skips} : $atom->{brackets} > 0, again => $atom->{brackets} > 0,
        left => $atom->{left} || ($atom->{skips} || $atom->{again}) && ($most // 2) > 1, empty => $ways, widest => max($ways, $atom->{widest}),
        has => [@{$atom->{has}}, $atom->{empty} ? 'repeat of a part that matches empty' : (), $more ? 'count written out for Perl' : ()],
        weight => $atom->{weight} * ($most // $least + 1) || 1, sample => $sample,
    };
}

# ---- Patterns.

# All parts of so many leaves, empty alternatives and signs (`*`, `+`, `?`, the lazy ones of these, or `{2}`) over the bytes a and b.
sub small_parts {
    my ($size) = @_;
    return (byte('a'), byte('b'), sequence()) if $size == 1;
    my @parts;
    for my $left (1 .. $size - 1) {
        my @second = small_parts($size - $left);
        for my $first (small_parts($left)) {
            push @parts, map { alternation($first, $_) } $first->{kind} eq 'alternation' ? () : @second;
            push @parts, map { sequence(map { $_->{kind} eq 'alternation' ? group($_) : $_ } $first, $_) }
                $first->{kind} eq 'sequence' ? () : grep { $_->{ours} ne '' } @second;
        }
    }
    for my $atom (map { $_->{kind} eq 'leaf' ? $_ : group($_) } small_parts($size - 1)) {
        push @parts, map({ my @sign = @$_; map { repeat($atom, @sign, $_) } 0, 1 } ['*', 0, undef], ['+', 1, undef], ['?', 0, 1]), repeat($atom, '{2}', 2, 2);
    }
    return @parts;
}

sub class_item { return join '-', map { chr =~ s/([\\\]\[^-])/\\$1/r } @_ }

sub random_class {
    my ($text, @ranges) = ('');
    # Now and then all bytes, those up to 9, or all but 10, or, negated, the rest: sets that hold no byte, or 10 as their first.
    @ranges = @{pick([[0, 255]], [[0, 9]], [[0, 9], [11, 255]])} if rand() < 0.02;
    $text .= class_item(@$_) for @ranges;
    for (1 .. (@ranges ? 0 : pick(1, 1, 2, 2, 3, 5))) {
        my ($name, $low) = (pick(@NAMES), ord pick(@own));
        my $high = min(255, $low + int rand(pick(1, 4, 4, 256)));
        my @item = rand() < 0.5 ? ($low) : ($low, $high == 10 ? $low : $high);
        my $named = rand() < 0.25;
        $text .= $named ? "[:$name:]" : class_item(@item);
        push @ranges, $named ? @{$SETS{$name}} : [@item[0, -1]];
    }
    my $negated = rand() < 0.3;
    return leaf('[' . ($negated ? '^' : '') . "$text]", $negated, @ranges);
}

# The atom, half the time under a sign that keeps its weight within what is left.
sub random_repeat {
    my ($atom, $left) = @_;
    return $atom if rand() < 0.5;
    my $copies = min(63, int($left / $atom->{weight}));
    my $up_to = sub { int rand(1 + (rand() < 0.9 ? min(3, $_[0]) : $_[0])) };
    my ($n, $open) = ($up_to->($copies), $up_to->($copies - 1));
    my $m = $up_to->($n);
    my $count = pick('%d', '%d', '%d', '%02d');
    return repeat($atom, @{pick(['*', 0, undef], $copies > 1 ? ['+', 1, undef] : ['*', 0, undef], ['?', 0, 1], [sprintf("{$count}", $n), $n, $n],
        [sprintf("{$count,}", $open), $open, undef], [sprintf("{$count,$count}", $m, $n), $m, $n])}, rand() < 0.3);
}

# The next three weigh at most what is left, and have so many brackets open together at most; nest says how readily one opens.
sub random_atom {
    my ($left, $deep, $nest) = @_;
    return group(random_alternation($left, $deep - 1, $nest)) if $deep && rand() < $nest;
    my $kind = rand;
    return $kind < 0.6 ? byte(pick(@own)) : $kind < 0.9 ? random_class() : leaf('.', 1, [10, 10]);
}

sub random_sequence {
    my ($left, $deep, $nest) = @_;
    my @atoms;
    while ($left > 0 && rand() < (@atoms ? 0.6 : 1 - $blank)) {
        push @atoms, random_repeat(random_atom($left, $deep, $nest), $left);
        $left -= $atoms[-1]{weight};
    }
    return sequence(@atoms);
}

sub random_alternation {
    my ($left, $deep, $nest) = @_;
    my @sequences;
    do {
        push @sequences, random_sequence($left, $deep, $nest);
        $left -= $sequences[-1]{weight};
    } while $left > 0 && rand() < 0.45;
    return alternation(@sequences);
}

sub random_pattern {
    my @kinds = map { @$_ } pick(@KINDS), rand() < 0.2 ? pick(@KINDS) : ();
    @own = map { pick(@kinds) } 1 .. pick(1, 2, 2, 3, 3, 4);
    $blank = pick(0.07, 0.3);
    my ($deep, $nest) = @{pick([1, 0.3], [2, 0.3], [3, 0.3], [4, 0.7], [16, 0.5], [16, 0.95])};
    my $pattern = random_alternation(pick(4, 6, 8, 12, 16, 24, 64), $deep, $nest);
    return length $pattern->{ours} > 255 || $pattern->{widest} > WAYS ? random_pattern() : $pattern;
}

# ---- Lines.

sub random_bytes {
    my ($most, @from) = @_;
    return join '', map { pick(@from) } 1 .. rand(1 + $most);
}

# One byte changed, added or left out.
sub nearly {
    my ($line) = @_;
    my ($place, $byte) = (int rand(1 + length $line), pick(@own, pick(@ANY)));
    substr $line, $place, ($place < length $line ? pick(0, 1, 1) : 0), pick($byte, $byte, '');
    return $line;
}

sub random_lines {
    my ($pattern) = @_;
    my %lines = ('' => 1);
    for (2 .. 2 * LINES) {
        my ($kind, $sample) = (rand, $pattern->{sample}->());
        my $line = $kind < 0.25 ? $sample : $kind < 0.45 ? nearly($sample)
            : $kind < 0.7 ? random_bytes(8, @own) . pick($sample, nearly($sample)) . random_bytes(8, @own)
            : $kind < 0.9 ? random_bytes(25, @own) : $kind < 0.95 ? random_bytes(15, @BYTES[128 .. 255]) : random_bytes(15, @ANY);
        $lines{substr $line, 0, LONGEST} = 1;
        last if keys %lines == LINES;
    }
    return sort keys %lines;
}

sub short_lines {
    my @lines = my @longest = ('');
    push @lines, @longest = map { ("${_}a", "${_}b") } @longest for 1 .. 4;
    return @lines;
}

# ---- Cases.

sub case_of {
    my ($pattern, $lines) = @_;
    my $alike = $pattern->{brackets} && $pattern->{brackets} <= 8 && !$pattern->{left} && !grep { $_ eq 'repeat of a part that matches empty' } @{$pattern->{has}};
    return { map({ $_ => $pattern->{$_} } qw(ours perl posix has)), $alike ? (caught => $pattern->{caught}) : (), lines => $lines };
}

sub random_case {
    my $pattern = random_pattern();
    return case_of($pattern, [random_lines($pattern)]);
}

# Of two patterns that differ by a and b swapped, one.
sub small_cases {
    @own = ();
    # One list for all: the more memory is in use, the longer it takes to start a process.
    my $lines = [short_lines()];
    return map { case_of($_, $lines) } grep { $_->{ours} !~ /^[^a]*b/ } map { small_parts($_) } 1 .. 4;
}

# `(|a)*`, the count from the head of this file, and `a*?`, for the self-test.
sub repeat_cases {
    @own = ();
    my ($turn, $tail) = map { group(alternation(map { sequence(map { byte($_) } split //) } @$_)) } ['', 'a', 'aaa'], ['ab', 'bc'];
    return case_of(repeat(group(alternation(sequence(), byte('a'))), '*', 0), [short_lines()]), case_of(sequence(repeat($turn, '{0,2}', 0, 2), $tail), ['aaabc']),
        case_of(repeat(byte('a'), '*', 0, undef, 1), [short_lines()]);
}

# The constructs of a case's pattern, for the summary. Each of these is told by one token of the text.
my @CONSTRUCTS = (
    ['escaped byte', qr/^\\/], ['byte above 127', qr/^[\x80-\xff]/], ['control byte', qr/^[\0-\x1f\x7f]/], ['.', qr/^\./], ['group', qr/^\(/],
    ['alternation', qr/^\|/], ['class', qr/^\[[^^]/], ['negated class', qr/^\[\^/], ['range', qr/^\[(\\.|[^\\-])*-/s], ['escape in a class', qr/^\[.*\\/s],
    map({ [$_, qr/^\[.*\[:$_:\]/s] } @NAMES),
    map({ my ($name, $sign) = @$_; [$name, qr/^$sign\z/], ["$name?", qr/^$sign\?\z/] }
        ['*', qr/\*/], ['+', qr/\+/], ['?', qr/\?/], ['{m}', qr/\{\d+\}/], ['{m,}', qr/\{\d+,\}/], ['{m,n}', qr/\{\d+,\d+\}/]),
);

sub constructs {
    my ($case) = @_;
    my ($last, %has) = ('(', map { $_ => 1 } @{$case->{has}});
    for my $token ($case->{ours} =~ /\\.|\[(?:\[:\w+:\]|\\.|[^\]\\])+\]|(?:\{[\d,]+\}|[*+?])\??|./gs, ')') {
        $has{$_->[0]} = 1 for grep { $token =~ $_->[1] } @CONSTRUCTS;
        $has{'empty sequence'} = 1 if $last =~ /^[(|]$/ && $token =~ /^[|)]$/;
        $has{'repeat of a group'} = 1 if $last eq ')' && $token =~ /^[*+?{]/;
        $last = $token;
    }
    return keys %has;
}

1;
