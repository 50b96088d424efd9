# What the front says to people after a command that failed, and after a request that got no room: which word is at fault and what form it
# has to have, which file and why, and what to do. All of it goes to standard error. Read by `rooms` in this folder once the program ended;
# `foresees` is asked before `serve`, which the front becomes where all is well.
use strict;

our ($folder, $program, %forms, %command, @commands);
load('help.pl');
load('store.pl');

sub say_line {
    my $line = join '', @_;
    $line =~ s/[\x00-\x1f\x7f]/?/g;
    print STDERR "rooms: $line\n";
}

# ---- forms of words: each gives what is wrong with a word, or nothing

sub days_of {
    my ($year, $month) = @_;
    return $month == 2 ? 28 + ($year % 4 == 0) : 30 + ($month + ($month > 7)) % 2;
}

sub is_day {
    my ($word) = @_;
    my ($year, $month, $day) = $word =~ /\A(\d{4})-(\d\d)-(\d\d)\z/ or return 0;
    return 0 if $year < 1990 or $year > 2099 or $month < 1 or $month > 12;
    return $day >= 1 && $day <= days_of($year, $month);
}

# The day that was perhaps meant by a word of another form.
sub meant_day {
    my ($word) = @_;
    my %near = (yesterday => -1, today => 0, now => 0, tomorrow => 1);
    return day_ahead($near{ lc $word }) if exists $near{ lc $word };
    my ($year, $month, $day) =
        $word =~ m{\A(\d{4})[-/.](\d{1,2})[-/.](\d{1,2})\z}  ? ($1, $2, $3)
      : $word =~ m{\A(\d{1,2})\.(\d{1,2})\.(\d{4})\z}        ? ($3, $2, $1)
      : $word =~ m{\A(\d{4})(\d\d)(\d\d)\z}                  ? ($1, $2, $3)
      :                                                        return;
    my $meant = sprintf '%04d-%02d-%02d', $year, $month, $day;
    return is_day($meant) ? $meant : undef;
}

sub day_fault {
    my ($word) = @_;
    return if is_day($word);
    my $meant = meant_day($word);
    my $form = $word =~ /\A\d{4}-\d\d-\d\d\z/ ? 'no day of the calendar from 1990-01-01 to 2099-12-31' : 'no day: a day is YYYY-MM-DD';
    return "'$word' is $form" . (defined $meant ? ", as $meant" : $form =~ /calendar/ ? '' : ', as ' . day_ahead(7));
}

sub time_fault {
    my ($word) = @_;
    return if $word =~ /\A([01]\d|2[0-3]):[0-5]\d\z/;
    my ($hour, $minute, $half) = $word =~ /\A(\d{1,2})(?:[:.h]?(\d\d))? ?(am|pm)?\z/i;
    my $meant = '09:00';
    if (defined $hour and $hour < 24) {
        $hour = $hour % 12 + (lc $half eq 'pm' ? 12 : 0) if defined $half;
        $meant = sprintf '%02d:%02d', $hour, $minute // 0 if ($minute // 0) < 60;
    }
    return "'$word' is no time: a time is HH:MM from 00:00 to 23:59, as $meant";
}

sub room_fault {
    my ($word) = @_;
    return if $word =~ /\A[a-z0-9-]{1,16}\z/;
    my $meant = substr lc($word) =~ tr/_ /--/r =~ s/[^a-z0-9-]//gr, 0, 16;
    return "'$word' is no name of a room: it has $forms{ROOM}" . ($meant ne '' ? "; perhaps '$meant'" : '');
}

my %plain = (
    "\xc3\xa4" => 'ae', "\xc3\xb6" => 'oe', "\xc3\xbc" => 'ue', "\xc3\x84" => 'Ae', "\xc3\x96" => 'Oe', "\xc3\x9c" => 'Ue', "\xc3\x9f" => 'ss',
    "\xc3\xa9" => 'e', "\xc3\xa8" => 'e', "\xc3\xaa" => 'e', "\xc3\xab" => 'e', "\xc3\x89" => 'E', "\xc3\xa0" => 'a', "\xc3\xa1" => 'a',
    "\xc3\xa2" => 'a', "\xc3\xa3" => 'a', "\xc3\xa5" => 'aa', "\xc3\xa7" => 'c', "\xc3\xad" => 'i', "\xc3\xae" => 'i', "\xc3\xaf" => 'i',
    "\xc3\xb3" => 'o', "\xc3\xb4" => 'o', "\xc3\xb5" => 'o', "\xc3\xba" => 'u', "\xc3\xbb" => 'u', "\xc3\xb1" => 'n', "\xc3\xb8" => 'oe',
    "\xc3\xa6" => 'ae', "\xe2\x80\x93" => '-', "\xe2\x80\x94" => '-', "\xe2\x80\x99" => "'", "\xe2\x80\x9c" => '"', "\xe2\x80\x9d" => '"',
);

# The title in plain letters, where that can be had.
sub plain_title {
    my ($word) = @_;
    $word =~ s/([\xc0-\xff][\x80-\xbf]*)/$plain{$1} \/\/ $1/ge;
    $word =~ s/\s+/ /g;
    $word =~ s/^ | $//g;
    return $word =~ /\A[\x20-\x7e]{1,60}\z/ ? $word : undef;
}

sub title_fault {
    my ($word) = @_;
    return if $word =~ /\A[\x21-\x7e]([\x20-\x7e]{0,58}[\x21-\x7e])?\z/;
    my $meant = plain_title($word);
    my $fault =
        $word eq ''                          ? 'a title has a letter at least'
      : length $word > 60 && $word !~ /[^\x20-\x7e]/ ? "'$word' has " . length($word) . ' letters: a title has 60 at most'
      : $word =~ /([\xc0-\xff][\x80-\xbf]*)/ ? "'$word' is no title for this program, which knows no '$1', only letters without accents"
      : $word =~ /\A | \z/                   ? "'$word' has a space at an end, which a title may not have"
      :                                        "'$word' is no title: a title has $forms{TITLE}";
    return $fault . (defined $meant ? "; write '$meant'" : '');
}

sub number_fault {
    my ($word, $name, $least, $most) = @_;
    return if $word =~ /\A(0|[1-9]\d{0,14})\z/ and $word >= $least and $word <= $most;
    my $other = $word =~ /\A0+(\d+)\z/ ? ', without a zero before it' : '';
    return "'$word' is no $name: that is a number from $least to $most$other";
}

sub id_fault {
    my ($word) = @_;
    return if $word =~ /\A[1-9]\d?-[1-9]\d{0,8}\z/;
    return "'$word' is no id of a request: an id is $forms{ID}";
}

sub choice_fault {
    my ($word) = @_;
    my ($day, $time) = split /T/, $word, 2;
    return day_fault($day // '') // time_fault($time // '');
}

sub address_fault {
    my ($word) = @_;
    return "'$word' has https, which `exchange` doesn't speak: take a tunnel, or rooms-courier" if $word =~ m{\Ahttps://}i;
    return if $word =~ m{\Ahttp://[^/?#@\s]+(:\d+)?/?\z}i;
    my ($host) = $word =~ m{\A(?:[a-z]+://)?(?:[^/@]*@)?([\w.-]+(?::\d+)?)(?:/|\z)}i;
    return "'$word' is no address: it is http://HOST:PORT/ with nothing behind it, as http://" . ($host // '127.0.0.1:8080') . '/';
}

my %fault_of = (
    ROOM => \&room_fault, DAY => \&day_fault, TIME => \&time_fault, TITLE => \&title_fault, ID => \&id_fault, DAYTTIME => \&choice_fault,
    ADDRESS     => \&address_fault,
    LENGTH      => sub { number_fault($_[0], 'length in minutes', 1, 1440) },
    SERVER      => sub { number_fault($_[0], 'number of an office', 1, 99) },
    PRIMARY     => sub { number_fault($_[0], 'number of an office', 1, 99) },
    COUNT       => sub { number_fault($_[0], 'count', 0, 999_999_999_999) },
    PORT        => sub { number_fault($_[0], 'port', 1, 65535) },
    CONNECTIONS => sub { number_fault($_[0], 'number of connections', 0, 999_999_999) },
    LINES       => sub { number_fault($_[0], 'number of lines', 1, 100_000) },
    WHICH       => sub { $_[0] =~ /\A(full|committed)\z/ ? undef : "'$_[0]' is neither `full` nor `committed`" },
);

# The names of a command's words, the last as often as there are words for it where it may be repeated.
sub names_of {
    my ($name, $count) = @_;
    my @names = $command{$name}[1] =~ /[A-Z]+/g;
    push @names, $names[-1] while $command{$name}[1] =~ /\.\./ and @names < $count;
    return @names;
}

# ---- status 2: the words are no command line

# What is said of words that are in another order than `book` has them, or of a title without quotes.
sub book_fault {
    my (@words) = @_;
    my ($database, $room, $length, $day, $time, $title, @others) = @words;
    if (@words >= 6 and is_day($length) and not time_fault($day) and $time =~ /\A\d+\z/) {
        return "book has the length before the day: rooms book $database $room $time $length $day '$title'";
    }
    my @loose = grep { !/T/ && choice_fault($_) } @others;
    if (@loose == @others and @others) {
        return "'$others[0]' is no alternative: put a title of several words into quotes, as '" . join(' ', $title, @others) . "'";
    }
    return;
}

# Words as a sentence lists them.
sub listed {
    my $last = pop;
    return @_ ? join(', ', @_) . " and $last" : $last;
}

sub bad_words {
    my ($name, @words) = @_;
    if (not $command{$name}) {
        my $meant = nearest($name, map { $_->[0] } @commands);
        return "'$name' is no command" . (defined $meant ? ": did you mean `$meant`?" : ';') . ' `rooms help` lists all commands';
    }
    my @names = names_of($name, scalar @words);
    my $least = grep { !/DAYTTIME/ } $command{$name}[1] =~ /[A-Z]+/g;
    my $table = "$name needs $command{$name}[1]";
    my ($option) = grep { /\A-/ && $_ ne '--' } @ARGV;
    if (defined $option and @words >= $least and @words <= @names and not grep { $_ eq '--' } @ARGV) {
        return "'$option' begins with a hyphen, which is taken for an option: put the word -- behind `$name`, as rooms $name -- ..";
    }
    if (@words < $least) {
        my @missing = @names[scalar @words .. $least - 1];
        my @faults = grep { defined } map { defined $fault_of{ $names[$_] } ? $fault_of{ $names[$_] }->($words[$_]) : undef } 0 .. $#words;
        return "$table: " . listed(@missing) . (@missing > 1 ? ' are' : ' is') . ' missing' . (@faults ? "; $faults[0]" : '');
    }
    return "$table: '$words[scalar @names]' is a word too many" if @words > @names;
    for my $i (0 .. $#words) {
        next unless $names[$i] =~ /^(SERVER|PRIMARY|COUNT|PORT|CONNECTIONS|LINES|WHICH|ADDRESS)$/;
        my $fault = $fault_of{ $names[$i] }->($words[$i]);
        return $fault if defined $fault;
    }
    for my $word (@words) {
        return "'$word' isn't written in UTF-8" unless utf8::decode(my $copy = $word);
    }
    return "$table; `rooms help $name` has an example";
}

# ---- status 1: a refusal

# The first word of one of these names that has not its form.
sub first_fault {
    my ($names, $name, @words) = @_;
    my @of = names_of($name, scalar @words);
    for my $i (0 .. $#words) {
        next unless $of[$i] =~ $names;
        my $fault = $fault_of{ $of[$i] }->($words[$i]);
        return $fault if defined $fault;
    }
    return;
}

sub bad_length {
    my ($name, @words) = @_;
    my $fault = first_fault(qr/^LENGTH$/, $name, @words);
    return $fault if defined $fault;
    for my $choice ("$words[3]T$words[4]", @words[6 .. $#words]) {
        my ($day, $hour, $minute) = $choice =~ /\A(.*)T(\d\d):(\d\d)\z/ or next;
        next if $hour * 60 + $minute + $words[2] <= 1440;
        return "$words[2] minutes from $hour:$minute end after midnight, which no meeting may: ask for two, one on each day";
    }
    return "a choice would end after midnight";
}

sub unknown_room {
    my ($database, $room) = @_;
    my @rooms = room_names($database);
    my $meant = nearest($room, @rooms);
    return "$database knows no room '$room'" . (defined $meant ? ": did you mean '$meant'? " : '. ')
        . (@rooms > 20 ? 'It has ' . @rooms . ' rooms' : @rooms ? 'It has ' . listed(@rooms) : 'It has no room yet')
        . "; rooms add-room $database $room adds it";
}

# The server, the primary and the number of commits of a database, as its position says them.
sub about {
    my ($database) = @_;
    my $text = ask('position', $database);
    return $text =~ /\Amp2 (\d+) (\d+)\nK (\d+)\n/;
}

sub of_primaries {
    my ($database, $text) = @_;
    my ($server, $primary) = about($database) or return $text;
    return "$database is office $server, and its primary is office $primary: $text";
}

# What the files of a batch or position begin with, or a line of them.
sub line_of {
    my ($file, $number) = @_;
    open my $lines, '<', $file or return;
    my $line;
    while (defined($line = <$lines>) and $number > 1) { $number-- }
    return defined $line ? substr($line =~ s/\n//r, 0, 60) : undef;
}

sub bad_batch {
    my ($what, $file, $number) = @_;
    my $line = line_of($file, $number);
    return "line $number of $file $what" . (defined $line ? ": '$line'" : '');
}

my $APART = "Keep both databases and the batch, and don't exchange with that office: docs/TROUBLE.md, on what a replica refuses";

# By number: what is said of a refusal, of the command's name, its words and the line that the refusal names.
my %refused = (
    1  => sub { my $name = shift; my $line = pop; ($name eq 'book' ? book_fault(@_) : undef) // first_fault(qr/^DAY/, $name, @_) },
    2  => sub { my $name = shift; my $line = pop; ($name eq 'book' ? book_fault(@_) : undef) // first_fault(qr/^(TIME|DAYTTIME)$/, $name, @_) },
    3  => sub { my $name = shift; my $line = pop; book_fault(@_) // bad_length($name, @_) },
    4  => sub { my $name = shift; my $line = pop; first_fault(qr/^ROOM$/, $name, @_) },
    5  => sub { my $name = shift; my $line = pop; first_fault(qr/^TITLE$/, $name, @_) },
    6  => sub { (@_ - 8) . ' alternatives are too many: there may be 16' },
    7  => sub { unknown_room(@_[1, 2]) },
    8  => sub { "$_[1] has the room '$_[2]' already" },
    9  => sub {
        id_fault($_[3]) // "$_[1] knows no request $_[3] of the room '$_[2]'"
            . ($_[0] eq 'cancel' ? ' that could be cancelled (a cancel can\'t be)' : '') . ": rooms calendar $_[1] $_[2] full has the ids";
    },
    10 => sub { of_primaries($_[1], 'only the primary commits') },
    11 => sub { "$_[1] is the primary, which keeps all: only other offices drop what is committed" },
    12 => sub {
        my (undef, undef, $commits) = about($_[1]);
        "$_[2] is more than the commits that $_[1] knows" . (defined $commits ? ", which are $commits: rooms truncate $_[1] $commits" : '');
    },
    13 => sub { 'the clock of this office is exhausted, which only a forged batch brings: docs/TROUBLE.md, on 13' },
    14 => sub { 'the numbers of this office are used up: make a database with a new server number' },
    15 => sub { bad_batch("isn't of a batch", $_[2], $_[-1]) . '; export it anew' },
    16 => sub {
        my $file = $_[0] =~ /^(export|import)$/ ? $_[2] : undef;
        my $other = defined $file ? line_of($file, 1) : undef;
        of_primaries($_[1], defined $other ? "$file belongs to another one ('$other')" : 'the other one has another primary');
    },
    17 => sub { ($_[0] eq 'import' ? bad_batch('leaves a gap', $_[2], $_[-1]) . '; ' : '') . 'ask for the position anew, and export for that' },
    18 => sub { "a line is out of its order. $APART" },
    19 => sub { "a request that is known here has another content there. $APART" },
    20 => sub { "the batch has a request of this very office that it never made: is this an older copy, or has another office its number? $APART" },
    21 => sub { "the batch has commits that this primary never made. $APART" },
    22 => sub { 'what is lacked was dropped here (truncate): exchange with the primary first, which keeps all' },
    23 => sub { my $line = line_of($_[2], 1) // ''; "$_[2] is no position: it begins with '$line'. rooms position OTHER > $_[2] makes one" },
    24 => sub { 'there was no memory; look at the sheet, and call it again' },
    25 => sub { my $name = shift; my $line = pop; cause($name, @_) },
    26 => sub { my $name = shift; my $line = pop; no_replica($name, @_) },
    27 => sub { "$_[2] is of an older program, to which cancels and more than eight alternatives can't be said: docs/TROUBLE.md, on older programs" },
);

sub refusal {
    my ($line, $name, @words) = @_;
    return 'a line of the script is none of the table, and nothing was run (docs/FORMATS.md, Scripts)' if $name eq '';
    if ($line =~ /^peer answered (\d+)$/) {
        my %peer = (409 => ', it refuses: docs/TROUBLE.md, on what a replica refuses', 400 => ': it is of an older program, or no replica',
            503 => ': it has no memory, or its disk is full', 404 => ': nothing of rooms serves there');
        return "$words[1] answered $1" . ($peer{$1} // '');
    }
    if ($line =~ /^bad script line (\d+)$/) {
        my $text = @words ? line_of($words[0], $1) : undef;
        return "line $1 of the script is none of the table" . (defined $text ? ": '$text'" : '') . '; nothing was run (docs/FORMATS.md, Scripts)';
    }
    return unless $line =~ /^refused (\d+) \w+(?: (\d+))?$/ and $refused{$1};
    my $said = $refused{$1}->($name, @words, $2 // 0);
    return $said // "$name needs $command{$name}[1]: `rooms help $name` has the forms";
}

# ---- status 0: a request without a room, a cancel of nothing

sub minutes { my ($hour, $minute) = split /:/, $_[0]; return $hour * 60 + $minute }

# The lines of a sheet that overlap this slot, and the first later slot of this length that none does.
sub look_at_day {
    my ($database, $room, $day, $from, $length) = @_;
    my ($start, @lines) = (minutes($from));
    my $free = $start;
    for my $line (split /\n/, ask('sheet', $database, $room, $day)) {
        my ($begin, $end) = $line =~ /^(\d\d:\d\d)-(\d\d:\d\d) / or next;
        push @lines, "$day $line" if minutes($begin) < $start + $length and minutes($end) > $start;
        $free = minutes($end) if minutes($begin) < $free + $length and minutes($end) > $free;
    }
    return (\@lines, $free + $length <= 1440 ? sprintf '%s %02d:%02d', $day, $free / 60, $free % 60 : undef);
}

sub no_room {
    my ($id, $mark, $name, $database, $room, @words) = @_;
    my @choices;
    my $length;
    if ($name eq 'book') {
        $length = $words[0];
        @choices = ([ @words[1, 2] ], map { [ split /T/, $_, 2 ] } @words[4 .. $#words]);
    }
    elsif (ask('errors', $database, $room) =~ /^[TC] \Q$id\E (\S+) (\d\d:\d\d)-(\d\d:\d\d) /m) {
        $length = minutes($3) - minutes($2);
        @choices = ([ $1, $2 ]);
    }
    my (%seen, @way, $free);
    for my $choice (@choices) {
        my ($lines, $next) = look_at_day($database, $room, @$choice, $length);
        push @way, grep { !$seen{$_}++ } @$lines;
        $free //= $next;
    }
    say_line("there is NO ROOM for request $id: $room is taken at ", @choices > 1 ? 'all its choices' : join(' ', @{ $choices[0] // ['its time'] }),
        $mark eq 'C' ? '; that is final' : '');
    print STDERR "    while it is T it may still get a room: if you ask for another one, call rooms cancel $database $room $id\n" if $mark eq 'T';
    print STDERR "    $_ is in the way\n" for @way;
    print STDERR "    $room is free for $length minutes from $free\n" if defined $free;
}

sub cancelled_nothing {
    my ($target, $database, $room) = @_;
    my $outcome = ask('outcome', $database, $room, $target) =~ s/\n//r;
    return say_line("request $target has no room, and now it gets none any more: the cancel takes it back if it were to get one") if $outcome =~ / T logged$/;
    my $why = $outcome =~ / cancelled . (\S+)/ ? "cancel $1 has taken it back already" : $outcome =~ / logged$/ ? 'it never got a room' : 'it has none';
    say_line("nothing was cancelled: request $target has no booking to take back, $why ($outcome)");
}

# ---- what the front calls

# What the program prints with these words.
sub ask {
    my $child = open(my $lines, '-|') // return '';
    if (not $child) {
        open STDERR, '>', '/dev/null';
        exec { $program } $program, @_ or exit 4;
    }
    local $/;
    my $text = <$lines> // '';
    close $lines;
    return $text;
}

sub hint {
    my ($status, $end, $name, @words) = @_;
    my ($line) = $end =~ /([^\n]*)\n\z/;
    my $said;
    if ($status == 2) { $said = bad_words($name, @words) }
    elsif ($status == 1) {
        $said = refusal($line // guessed_line($name, @words), $name, @words) // 'it was refused; docs/FORMATS.md has all refusals';
    }
    elsif ($status == 3) { $said = fault($line // '', $name, @words) }
    elsif ($status == 0 and $line =~ /^(\d+-\d+) ([TC]) logged$/) { no_room($1, $2, $name, @words) }
    elsif ($status == 0 and $line =~ /^\d+-\d+ [TC] void (\d+-\d+)$/) { cancelled_nothing($1, @words) }
    say_line($said) if defined $said;
    say_line("no connection was asked for, so it has ended: rooms serve $words[0] $words[1] 1000 serves a thousand") if $status == 0 and $name eq 'serve';
    say_line("$words[3] is past; the request stands all the same") if $status == 0 and $name eq 'book' and $words[3] lt day_ahead(0);
}

1;
