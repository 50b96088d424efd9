# What `export` would write over, looked at before the program is run: a database, or another file that is no batch. Read by `rooms` in this
# folder.
use strict;

# What a batch begins with, of each version.
my @heads = ('mr1 ', 'mr2 ');

# Whether a file beginning so is a batch, or what is left of one whose writing failed, or an empty file.
sub begins_batch {
    my ($head) = @_;
    for my $batch (@heads) { return 1 if index($batch, substr $head, 0, 4) == 0 }
    return 0;
}

# Why `export` may not write to this path, or nothing if it may. Where there is no plain file that can be written, the program decides.
sub output_fault {
    my ($path) = @_;
    my $other = 'export would write over it; name another file for the batch';
    my $logged = -e "$path-wal" ? "$path-wal is there, so $path is a database: $other" : undef;
    return $logged unless -f $path and -w _;
    open my $file, '<', $path or return "$path can't be read, so nothing says whether it is a batch, and $other";
    sysread $file, my $head, 16;
    return "$path is a database: $other" if $head eq "SQLite format 3\0";
    return $logged // (begins_batch($head) ? undef : "$path is there and is no batch: $other, or remove it first");
}

1;
