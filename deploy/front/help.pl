# What the front prints where help is asked for: the table of the commands, one command with its words, their forms and an example, and the
# version. All of it goes to standard error; the status is 0, or 2 where there are no words at all and a terminal. Read by `rooms` in this
# folder, and by hints.pl, which takes the table of words from here.
use strict;

our ($folder, $program);

# A day of next week, for examples that can be copied.
sub day_ahead {
    my ($days) = @_;
    my (undef, undef, undef, $day, $month, $year) = localtime(time + 86400 * $days);
    return sprintf '%04d-%02d-%02d', $year + 1900, $month + 1, $day;
}

# What a word may be: its name in the table, and its form in words.
our %forms = (
    DATABASE    => 'the path of a database file, as west.db',
    ROOM        => '1 to 16 of the letters a to z, digits and hyphens, as oak or big-room',
    LENGTH      => 'minutes, from 1 to 1440; a meeting ends at midnight at the latest',
    DAY         => 'YYYY-MM-DD, from 1990-01-01 to 2099-12-31',
    TIME        => 'HH:MM, from 00:00 to 23:59',
    TITLE       => '1 to 60 letters without accents, digits and signs, in quotes where it has spaces',
    DAYTTIME    => 'an alternative, as ' . day_ahead(7) . 'T15:00; up to sixteen of them',
    ID          => 'SERVER-NUMBER, as 1-4: what the outcome of a request begins with',
    WHICH       => '`full` (all known requests) or `committed` (those that the primary has committed)',
    SERVER      => 'the number of the office, from 1 to 99: its own for ever',
    PRIMARY     => 'the number of the office that commits, from 1 to 99: the same at all offices',
    COUNT       => 'a number from 0 to 999999999999',
    PORT        => 'a number from 1 to 65535',
    CONNECTIONS => 'how many connections are served, from 0 to 999999999',
    LINES       => 'a number of lines, from 1 to 100000',
    POSITION    => 'the path of a file with what `rooms position` printed of the other database',
    BATCH       => 'the path of a file for a batch, or with one',
    SCRIPT      => 'the path of a file with a script',
    ADDRESS     => 'http://HOST:PORT/, as http://127.0.0.1:8080/',
);

# Name, words, what it does, and examples (DAY stands for a day of next week).
our @commands = (
    ['init', 'DATABASE SERVER PRIMARY', 'makes the database of an office', 'init west.db 1 1'],
    ['add-room', 'DATABASE ROOM', 'adds a room', 'add-room west.db oak'],
    ['book', 'DATABASE ROOM LENGTH DAY TIME TITLE [DAYTTIME..]', 'asks for a room',
        "book west.db oak 60 DAY 14:00 'Budget Meeting' DAYT15:00"],
    ['cancel', 'DATABASE ROOM ID', 'takes a request back', 'cancel west.db oak 1-1'],
    ['sheet', 'DATABASE ROOM DAY', 'the bookings of a day', 'sheet west.db oak DAY'],
    ['calendar', 'DATABASE ROOM WHICH', 'the bookings of all days', 'calendar west.db oak full'],
    ['outcome', 'DATABASE ROOM ID', 'what became of a request or a cancel', 'outcome west.db oak 1-1'],
    ['errors', 'DATABASE ROOM', 'requests that got no room, and cancels that took nothing back', 'errors west.db oak'],
    ['commit', 'DATABASE COUNT', 'at the primary: makes tentative requests final', 'commit west.db 1000000'],
    ['truncate', 'DATABASE COUNT', 'elsewhere: drops copies of committed requests', 'truncate east.db 6'],
    ['bridge', 'DATABASE DATABASE', 'exchanges between two databases of this machine', 'bridge east.db west.db'],
    ['exchange', 'DATABASE ADDRESS', 'exchanges with an office that serves', 'exchange east.db http://127.0.0.1:8080/'],
    ['position', 'DATABASE', 'what the database has, for a batch', 'position west.db > west.position'],
    ['export', 'DATABASE POSITION BATCH LINES', 'writes what a position lacks to a file', 'export east.db west.position batch 100000'],
    ['import', 'DATABASE BATCH', 'takes a batch', 'import west.db batch'],
    ['serve', 'DATABASE PORT CONNECTIONS', 'serves HTTP at 127.0.0.1, and ends', 'serve west.db 8080 1000'],
    ['rehearse', 'SCRIPT', 'runs a script on replicas in memory', 'rehearse examples/one_booking.script'],
);
our %command = map { $_->[0] => $_ } @commands;

sub print_table {
    print "rooms COMMAND WORD..     books meeting rooms in a database file. T is tentative, C is committed (final).\n\n";
    printf "  %-9s%-50s %s\n", @$_[0 .. 2] for @commands;
    print "\nrooms help COMMAND has the forms of its words and an example, `man rooms` all of it (in the repository:\n"
        . "man -l deploy/package/rooms.1). Without words, a script is run that comes on standard input. ROOMS_WAIT is for how many\n"
        . "seconds a command waits for others on the same database (10), ROOMS_HINTS=0 prints no hints after failures.\n";
}

sub example_of {
    my ($name) = @_;
    my ($example, $day) = ($command{$name}[3], day_ahead(7));
    return 'rooms ' . $example =~ s/DAY/$day/gr;
}

sub print_command {
    my ($name) = @_;
    my (undef, $words, $what) = @{ $command{$name} };
    my %seen;
    print "rooms $name $words\n    $what\n\n";
    for my $word ($words =~ /[A-Z]+/g) {
        printf "  %-12s%s\n", $word, $forms{$word} unless $seen{$word}++;
    }
    print "\nFor instance:  ", example_of($name), "\n";
}

sub version {
    # of the package a file has it alone, else the first heading of CHANGELOG.md that is one
    for my $file ("$folder/version", "$folder/../../CHANGELOG.md") {
        open my $lines, '<', $file or next;
        while (<$lines>) { return $1 if /^(?:## )?([0-9][0-9.]*)/ }
    }
    return 'of no known version';
}

# How many letters have to be changed, put in or left out to make one word of the other.
sub distance {
    my ($one, $two) = @_;
    my @row = (0 .. length $two);
    for my $i (1 .. length $one) {
        my @next = ($i);
        for my $j (1 .. length $two) {
            my $cost = $row[$j - 1] + (substr($one, $i - 1, 1) ne substr($two, $j - 1, 1));
            for my $other ($row[$j] + 1, $next[$j - 1] + 1) { $cost = $other if $other < $cost }
            push @next, $cost;
        }
        @row = @next;
    }
    return $row[-1];
}

# The one of these names that was perhaps meant, or nothing.
sub nearest {
    my ($word, @names) = @_;
    my ($best, $least) = (undef, 3);
    for my $name (@names) {
        my $away = $name =~ /^\Q$word\E/ && length $word > 1 ? 1 : distance(lc $word, $name);
        ($best, $least) = ($name, $away) if $away < $least and $away < length $word;
    }
    return $best;
}

# Prints what the words ask for; gives the status.
# What is asked for goes to standard output; what nobody asked for, or no such command, to standard error.
sub help {
    my @words = @_;
    my ($topic) = grep { $command{$_} } @words;
    my ($unknown) = grep { !/^(-h|--help|help|version|--version|-V)$/ } @words;
    my $is_found = @words && (defined $topic || !defined $unknown);
    my $before = select($is_found ? \*STDOUT : \*STDERR);
    if ((($words[0] // '') =~ /^(version|--version|-V)$/)) { print 'rooms ', version(), "\n" }
    elsif (defined $topic)                                { print_command($topic) }
    else {
        if (defined $unknown) {
            my $meant = nearest($unknown, map { $_->[0] } @commands);
            print "rooms: there is no command '$unknown'", defined $meant ? "; did you mean `$meant`?" : '', "\n\n";
        }
        print_table();
    }
    select($before);
    return $is_found ? 0 : 2;
}

1;
