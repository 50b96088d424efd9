# Writes how an office stands to the others, for its page and its doors, into /var/cache/rooms/NAME/status.json:
#
#     perl status.pl NAME DATABASE MINUTES [mail] PEER..
#
# DATABASE is a copy that nothing changes meanwhile; an office that was not met for so many minutes is shown in red; with the word `mail` the page asks
# for a mail address. A PEER is NAME=URL, one that the courier calls: how it fared last is in /var/lib/rooms/NAME/carried (lines `SECONDS STATUS URL
# WORDS`), when each was met last is kept in peers.met beside it (lines `URL SECONDS`). Who calls this office is known by the files of the proxy,
# /var/cache/rooms/NAME/callers/USER, which were changed when that user was answered last; their lines are dropped once they are many.
use strict;

my $share = $ENV{ROOMS_SHARE} || '/usr/share/rooms';
require "$share/news/files.pl";
require "$share/news/elsewhere.pl";

my ($name, $database, $minutes, @peers) = @ARGV;
my $may_mail = @peers && $peers[0] eq 'mail' ? shift @peers && 'true' : 'false';
die "the words are: status.pl NAME DATABASE MINUTES [mail] PEER..\n" if @ARGV < 3 or $minutes !~ /^[1-9]\d{0,5}$/ or grep { !/^[^=]+=./ } @peers;
my $state = ($ENV{ROOMS_STATE} || '/var/lib/rooms') . "/$name";
my $folder = ($ENV{ROOMS_CALENDARS} || '/var/cache/rooms') . "/$name";
my $MANY = 65536;

# The courier's last try with each peer, by address: when, the status, and its words.
sub last_tries {
    my %tries;
    for (read_lines("$state/carried")) { $tries{$3} = [ $1, $2, $4 ] if /^(\d+) (\d+) (\S+) ?(.*)/ }
    return %tries;
}

# When each peer was met last, with what the last tries add.
sub times_met {
    my %tries = @_;
    my %met;
    for (read_lines("$state/peers.met")) { $met{$1} = $2 if /^(\S+) (\d+)$/ }
    my %known = %met;
    for my $url (keys %tries) {
        my ($at, $status) = @{ $tries{$url} };
        $met{$url} = $at if $status == 0 and $at > ($met{$url} // 0);
    }
    put_file("$state/peers.met", 0600, map { "$_ $met{$_}\n" } sort keys %met) if join(' ', map { "$_ $met{$_}" } sort keys %met) ne join(' ', map { "$_ $known{$_}" } sort keys %known);
    return %met;
}

sub peers_json {
    my %tries = last_tries();
    my %met = times_met(%tries);
    my @list;
    for (@peers) {
        my ($peer, $url) = /^([^=]+)=(.*)/;
        my $try = $tries{$url};
        my $fault = $try && $try->[1] != 0 ? $try->[2] =~ s/^failed: //r =~ s/;.*//r : undef;
        push @list, '{"name":' . quoted($peer) . ',"met":' . quoted($met{$url} && moment($met{$url})) . ',"fault":' . quoted($fault) . '}';
    }
    return join ',', @list;
}

# The time of a caller's file is kept when its lines are dropped, and the proxy goes on writing there.
sub drop_lines {
    my ($file, $time) = @_;
    unlink $file;
    open my $new, '>', $file or return;
    chmod 0660, $new;
    close $new;
    utime $time, $time, $file;
}

sub callers_json {
    my @list;
    for my $file (sort glob "$folder/callers/*") {
        my ($caller) = $file =~ m{/([a-z][a-z0-9-]{0,31})$} or next;
        my ($size, $time) = (stat $file)[7, 9] or next;
        push @list, '{"name":' . quoted($caller) . ',"met":' . quoted(moment($time)) . '}';
        drop_lines($file, $time) if $size > $MANY;
    }
    return join ',', @list;
}

# ---- from here on, in order

my $position = ask('position', $database);
my ($server, $primary, $commits) = $position =~ /\Amp\d (\d+) (\d+)\nK (\d+)\n/ or die "$database can't be read\n";
my $requests = 0;
$requests += $1 while $position =~ /^V \d+ (\d+)$/mg;
my ($made) = join('', read_lines("$folder/news.json")) =~ /"made":"([^"]+)"/;
put_file("$folder/status.json", 0640, '{"made":' . quoted(moment(time)) . ',"news":' . quoted($made),
    ",\"server\":$server,\"primary\":$primary,\"requests\":$requests,\"tentative\":", $requests - $commits, ",\"mail\":$may_mail,\"red_minutes\":$minutes",
    ',"peers":[', peers_json(), '],"callers":[', callers_json(), '],"elsewhere":[', elsewhere_json($name, $database, map { /^([^=]+)=/ } @peers), "]}\n");
