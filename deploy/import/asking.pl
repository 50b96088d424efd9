# The office's routes, asked by curl, so that a password stands in a file of options and in no list of processes.
use strict;
use utf8;
use JSON::PP ();
use File::Temp ();

our ($url, $options);
my $scratch = File::Temp::tempdir(CLEANUP => 1);
my $tries = $ENV{ROOMS_TRIES} // 60;

# A reply: its status (0 where none came) and its text. `sent`: the office may have had the request nevertheless.
sub ask_once {
    my ($path, $body, $method) = @_;
    my @words = ('curl', '--silent', '--http1.1', '--connect-timeout', '10', '--max-time', '70', '--output', "$scratch/reply", '--write-out', '%{http_code} %{time_connect}');
    push @words, '--config', $options if defined $options;
    if (defined $body) {
        open my $file, '>', "$scratch/body" or die "rooms-import: $scratch/body can't be written: $!\n";
        print $file $body;
        close $file;
        push @words, '--request', $method // 'POST', '--header', 'Content-Type: application/json', '--header', 'Expect:', '--data-binary', "\@$scratch/body";
    }
    unlink "$scratch/reply";
    open my $curl, '-|', @words, '--', "$url$path" or die "rooms-import: there is no curl\n";
    my ($status, $connected) = split / /, <$curl> // '0 0';
    close $curl;
    local $/;
    my $text = '';
    if (open my $reply, '<:raw', "$scratch/reply") { $text = <$reply> // '' }
    return { status => $status eq '000' ? 0 : $status, text => $text, sent => $connected > 0 ? 1 : 0 };
}

# A reply of the office. While it surely had no request, as between two stretches of serving, it is asked again.
sub ask_office {
    my ($path, $body, $method) = @_;
    for my $left (reverse 0 .. $tries) {
        my $reply = ask_once($path, $body, $method);
        my $is_unsent = $reply->{status} == 0 ? !$reply->{sent} : $reply->{status} == 502 && $reply->{text} =~ /"not sent"/;
        return $reply if !$is_unsent;
        die "rooms-import: $url takes no requests; nothing of this was sent\n" if !$left;
        sleep 1;
    }
}

sub json_of {
    my ($text) = @_;
    my $read = eval { JSON::PP->new->utf8->decode($text) };
    return ref $read ? $read : undef;
}

# The bookings of a room and day, or nothing where the office doesn't know the room.
sub sheet_of {
    my ($room, $day) = @_;
    my $reply = ask_office("/rooms/$room/days/$day");
    refused_password($reply);
    return if $reply->{status} == 404;
    die "rooms-import: no sheet of $room, $day: status $reply->{status}\n" if $reply->{status} != 200;
    return [ map { /^(\d\d:\d\d)-(\d\d:\d\d) ([CT]) (\d+-\d+) (.*)$/ ? { start => minute_of($1), stop => minute_of($2), id => $4, title => $5 } : () } split /\n/, $reply->{text} ];
}

sub refused_password {
    my ($reply) = @_;
    die "rooms-import: the password was refused ($reply->{status})\n" if $reply->{status} == 401 or $reply->{status} == 403;
}

# The booking of these hours and title, or else the request of them without a room: its id and whether it has the room.
sub look_for {
    my ($item) = @_;
    my $from = minute_of($item->{start});
    my $rows = sheet_of(@$item{qw(room day)}) // [];
    for my $row (@$rows) { return ($row->{id}, 1) if $row->{start} == $from and $row->{stop} == $from + $item->{length} and $row->{title} eq $item->{title} }
    for my $line (split /\n/, ask_office("/rooms/$item->{room}/errors")->{text}) {
        my ($id, $day, $start, $title) = $line =~ /^[CT] (\d+-\d+) (\d{4}-\S+) (\d\d:\d\d)-\S+ (.*)$/ or next;
        return ($id, 0) if $day eq $item->{day} and $start eq $item->{start} and $title eq $item->{title};
    }
    return;
}

1;
