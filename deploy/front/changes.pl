# What a merge, a cancel or a commit did to the requests of a database's own office: their state at two moments is compared. Read by merged.pl
# of the front and by news.pl of the units; whoever reads this has a function `ask`, which gives what the program prints, and room_names.pl.
#
# The state of a request is a list: its room; its place, which is a slot, `none` or `cancelled`; the id of the cancel that took it back, or `-`;
# `C` if it is final, else `T`; the slot that it wished, or `-`, if it has no room; its title.
use strict;

my $SLOT = qr/\d{4}-\d\d-\d\d \d\d:\d\d-\d\d:\d\d/;

# What a database has of its own office: its numbers, its position, and the states by id, but for what is cancelled. Nothing where it can't be read.
sub own_requests {
    my ($database) = @_;
    my $position = ask('position', $database);
    my ($server, $primary) = $position =~ /\Amp\d (\d+) (\d+)\n/ or return;
    my ($count) = $position =~ /^V $server (\d+)$/m;
    my %own = (server => $server, primary => $primary, count => $count // 0, position => $position, states => {}, void => {});
    for my $room (room_names($database)) {
        my $calendar = ask('calendar', $database, $room, 'full');
        my $errors = ask('errors', $database, $room);
        return unless $calendar =~ /\A$room full\n/ and $errors =~ /\A$room errors\n/;
        $own{states}{$3} = [ $room, $1, '-', $2, '-', $4 ] while $calendar =~ /^($SLOT) ([CT]) ($server-\d+) (.*)$/mg;
        $own{states}{$2} = [ $room, 'none', '-', $1, $3, $4 ] while $errors =~ /^([CT]) ($server-\d+) ($SLOT) (.*)$/mg;
        $own{void}{$1} = 1 while $errors =~ /^[CT] ($server-\d+) cancel /mg;
    }
    return \%own;
}

# The state of a cancelled request, or nothing where this is none.
sub cancelled_state {
    my ($database, $room, $id, $title) = @_;
    my ($mark, $cancel_mark, $cancel) = ask('outcome', $database, $room, $id) =~ /\A\Q$id\E ([CT]) cancelled ([CT]) (\d+-\d+)\n\z/ or return;
    return [ $room, 'cancelled', $cancel, "$mark$cancel_mark" eq 'CC' ? 'C' : 'T', '-', $title ];
}

# Adds what was known before and is cancelled now; what was cancelled for good stays so.
sub add_cancelled {
    my ($database, $own, $before) = @_;
    for my $id (keys %$before) {
        next if $own->{states}{$id};
        my ($room, $place, undef, $mark, undef, $title) = @{ $before->{$id} };
        $own->{states}{$id} = "$place $mark" eq 'cancelled C' ? $before->{$id} : cancelled_state($database, $room, $id, $title) // next;
    }
}

# What became of a request, in a word, or nothing: `lost`, `moved`, `found`, `cancelled` or `final`. One that was not known before was made
# since: what its reply said is that it is not final, and that it has no room if that is `none`.
sub change_of {
    my ($old, $new) = @_;
    my ($place, $mark) = @$new[1, 3];
    return $place eq 'none' ? 'none' : $mark eq 'C' && $place ne 'cancelled' ? 'final' : undef unless $old;
    return $mark eq 'C' && $old->[3] eq 'T' ? 'final' : undef if $place eq $old->[1];
    return 'cancelled' if $place eq 'cancelled';
    return 'lost' if $place eq 'none';
    return $old->[1] =~ /^\d/ ? 'moved' : 'found';
}

1;
