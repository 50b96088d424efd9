# Rooms that the page of an office doesn't show: those that its database has by exchanges, and those of other offices' pages, which the courier brings
# (/var/lib/rooms/NAME/known/rooms.N of the Nth peer, and /var/cache/rooms/NAME/elsewhere/USER of one that calls). Read by status.pl; it takes files.pl.
use strict;

my $share = $ENV{ROOMS_SHARE} || '/usr/share/rooms';
require "$share/front/room_names.pl";
my $MOST = 60;

# A label of whatever letters, as JSON has it.
sub quoted_label {
    my ($text) = @_;
    my $letters = $text;
    $text =~ s/[\x80-\xff]/?/g unless utf8::decode($letters);
    return '"' . substr($text, 0, 200) =~ s/[\x00-\x1f\x7f]/?/gr =~ s/[\xc0-\xff][\x80-\xbf]*\z//r =~ s/(["\\])/\\$1/gr . '"';
}

# What isn't on the page, as JSON: of each room its label, whether the database has it, and the office on whose page it stands, if one is known.
sub elsewhere_json {
    my ($name, $database, @peers) = @_;
    my $state = ($ENV{ROOMS_STATE} || '/var/lib/rooms') . "/$name";
    my $folder = ($ENV{ROOMS_CALENDARS} || '/var/cache/rooms') . "/$name";
    my %is_shown = map { $_->[0] => 1 } rooms_of_page(($ENV{ROOMS_ETC} || '/etc/rooms') . "/$name.rooms.json");
    my %is_known = map { $_ => 1 } room_names($database);
    my (%office, %label);
    my @pages = ((map { [ $peers[$_], "$state/known/rooms.$_" ] } 0 .. $#peers), map { m{/([a-z][a-z0-9-]{0,31})\z} ? [ $1, $_ ] : () } sort glob "$folder/elsewhere/*");
    for (@pages) {
        my ($office, $file) = @$_;
        for (rooms_of_page($file)) { ($office{ $_->[0] }, $label{ $_->[0] }) = ($office, $_->[1]) unless defined $office{ $_->[0] } }
    }
    my @rooms = %is_shown ? grep { !$is_shown{$_} } sort keys %{ { %is_known, %office } } : ();
    return join ',', map {
        '{"room":' . quoted($_) . ',"label":' . quoted_label($label{$_} // $_) . ',"known":' . ($is_known{$_} ? 'true' : 'false') . ',"office":' . quoted($office{$_}) . '}'
    } @rooms[0 .. ($#rooms < $MOST ? $#rooms : $MOST - 1)];
}

1;
