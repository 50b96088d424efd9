# The rooms that a database knows: a reader of SQLite's files for the one table `room`, since no command of the program lists them; and whether there
# is a table at all. It reads the database file and the whole transactions of its log, and writes nothing. Read by store.pl; as a program of its own it prints the names:
#
#     perl room_names.pl DATABASE
#
# Where the database is being changed meanwhile, it may find less; then it tries again.
use strict;

sub read_file {
    my ($path) = @_;
    open my $file, '<:raw', $path or return '';
    local $/;
    return <$file> // '';
}

# The pages of the log that are of whole transactions, by number.
sub logged_pages {
    my ($log, $size) = @_;
    my (%pages, %pending);
    return {} if length $log < 32;
    my $salt = substr $log, 16, 8;
    for (my $at = 32; $at + 24 + $size <= length $log; $at += 24 + $size) {
        last if substr($log, $at + 8, 8) ne $salt;
        my ($number, $commit) = unpack 'NN', substr $log, $at, 8;
        $pending{$number} = substr $log, $at + 24, $size;
        next unless $commit;
        %pages = (%pages, %pending);
        %pending = ();
    }
    return \%pages;
}

# A number of SQLite's variable length, and where it ends.
sub varint {
    my ($page, $at) = @_;
    my $value = 0;
    for (1 .. 9) {
        my $byte = ord substr $page, $at++, 1;
        $value = ($value << 7) | ($byte & 127);
        last if $byte < 128;
    }
    return ($value, $at);
}

# The values of a record that has texts and numbers alone.
sub values_of {
    my ($page, $at) = @_;
    my ($head, $place) = varint($page, $at);
    my ($body, @values, $type) = ($at + $head);
    while ($place < $at + $head) {
        ($type, $place) = varint($page, $place);
        my $length = $type >= 12 ? int(($type - 12) / 2) : (0, 1, 2, 3, 4, 6, 8, 8, 0, 0)[$type] // 0;
        my $bytes = substr $page, $body, $length;
        push @values, $type >= 12 ? $bytes : $type == 9 ? 1 : $length ? unpack('N', ("\0" x 4 . $bytes) =~ s/.*(?=.{4}$)//sr) : 0;
        $body += $length;
    }
    return @values;
}

# The rows of the table whose tree begins at this page.
sub rows_of {
    my ($page_of, $number, $depth) = @_;
    my $page = $page_of->($number);
    my $head = $number == 1 ? 100 : 0;
    my ($kind, $count) = (ord substr($page, $head, 1), unpack 'n', substr $page, $head + 3, 2);
    return () if $depth > 20 or ($kind != 13 and $kind != 5);
    my @rows;
    for my $i (0 .. $count - 1) {
        my $at = unpack 'n', substr $page, $head + ($kind == 13 ? 8 : 12) + 2 * $i, 2;
        if ($kind == 5) {
            push @rows, rows_of($page_of, unpack('N', substr $page, $at, 4), $depth + 1);
            next;
        }
        (undef, $at) = varint($page, $at);
        (undef, $at) = varint($page, $at);
        push @rows, [ values_of($page, $at) ];
    }
    push @rows, rows_of($page_of, unpack('N', substr $page, $head + 8, 4), $depth + 1) if $kind == 5;
    return @rows;
}

# What gives the pages of a database by number, of the file and its log; nothing where it is none.
sub pages_of {
    my ($path) = @_;
    my ($data, $log) = (read_file($path), read_file("$path-wal"));
    my $size = 0;
    if (substr($data, 0, 16) eq "SQLite format 3\0") { $size = unpack 'n', substr $data, 16, 2 }
    elsif (length $log > 32)                         { $size = unpack 'N', substr $log, 8, 4 }
    return unless $size;
    $size = 65536 if $size == 1;
    my $logged = logged_pages($log, $size);
    return sub {
        my ($number) = @_;
        my $page = $logged->{$number} // substr $data, ($number - 1) * $size, $size;
        return length $page == $size ? $page : "\0" x $size;
    };
}

sub has_no_table {
    my $page_of = pages_of(@_) or return;
    return !rows_of($page_of, 1, 0);
}

sub room_names_once {
    my $page_of = pages_of(@_) or return;
    my ($table) = grep { ($_->[0] // '') eq 'table' and ($_->[1] // '') eq 'room' } rows_of($page_of, 1, 0);
    return unless $table;
    return map { $_->[0] } rows_of($page_of, $table->[3], 0);
}

sub room_names {
    my ($path) = @_;
    for (1 .. 3) {
        my @names = grep { defined && /\A[a-z0-9-]{1,16}\z/ } room_names_once($path);
        return sort @names if @names;
        select undef, undef, undef, 0.05;
    }
    return ();
}

if (not caller) {
    die "the word is a database\n" if @ARGV != 1;
    die "$ARGV[0] can't be read: $!\n" unless open my $file, '<', $ARGV[0];
    print "$_\n" for room_names($ARGV[0]);
}

1;
