# What the front says after an exchange: which requests of the database's own office lost their room, moved, found a room or were cancelled.
# Read by `rooms` in this folder.
use strict;

our ($folder);
load('hints.pl');
load('room_names.pl');
load('changes.pl');

# a screen of lines
my $MOST = 20;

# The databases of a command that merges, each with what it has of its own office.
sub before_merge {
    my ($name, @words) = @_;
    return map { [ $_, own_requests($_) ] } grep { -s } databases($name, @words);
}

# One line on a request that had one state and has another.
sub change_line {
    my ($id, $old, $new) = @_;
    my $kind = change_of($old, $new);
    my ($room, $place, $cancel, undef, $wish, $title) = @$new;
    my $had = $old->[1] =~ /^(\S+) ([\d:]+)/ ? " on $1 at $2" : '';
    my ($day, $start) = $place =~ /^(\d\S+) ([\d:]+)/;
    my $has = !defined $day ? '' : $old->[1] =~ /^$day / ? $start : "$day at $start";
    my %line = (
        lost => "$id $title " . ($had ? "lost its room $room$had" : "in $room is no longer cancelled, and has no room"),
        moved => "$id $title in $room, which was$had, moved to $has",
        found => "$id $title has the room $room by now, on $has",
        cancelled => "$id $title in $room" . ($had ? ", which was$had," : '') . " was cancelled by $cancel",
    );
    return $line{ $kind // '' };
}

# The changed requests of one database: their kinds and lines, by day and hour.
sub changes_since {
    my ($database, $before) = @_;
    my $own = own_requests($database) or return;
    add_cancelled($database, $own, $before->{states});
    my @changes;
    for my $id (keys %{ $own->{states} }) {
        # what was neither booked nor without a room had been cancelled
        my ($old, $new) = ($before->{states}{$id} // [ '', 'cancelled', '-', 'T' ], $own->{states}{$id});
        my $line = change_line($id, $old, $new) // next;
        push @changes, [ ($old->[1] =~ /^\d/ ? $old : $new)->[1] . " $id", change_of($old, $new), $line ];
    }
    return map { [ @$_[1, 2] ] } sort { $a->[0] cmp $b->[0] } @changes;
}

sub say_changes {
    my ($database, @changes) = @_;
    my %words = (lost => 'lost the room', moved => 'moved', found => 'found a room', cancelled => 'cancelled');
    my %count;
    $count{ $_->[0] }++ for @changes;
    my @counts = map { "$count{$_} $words{$_}" } grep { $count{$_} } qw(lost moved found cancelled);
    say_line("of the requests that this office made ($database): ", join ', ', @counts);
    my @shown = @changes > $MOST + 1 ? @changes[0 .. $MOST - 1] : @changes;
    print STDERR '    ', $_->[1] =~ s/[\x00-\x1f\x7f]/?/gr, "\n" for @shown;
    print STDERR '    and ', @changes - @shown, " more\n" if @shown < @changes;
}

sub after_merge {
    for (@_) {
        my ($database, $before) = @$_;
        my @changes = $before ? changes_since($database, $before) : ();
        say_changes($database, @changes) if @changes;
    }
}

1;
