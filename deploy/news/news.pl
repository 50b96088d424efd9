# Finds what a merge, a cancel or a commit did to the requests of an office since the last time, and keeps it for some days:
#
#     perl news.pl NAME DATABASE DAYS
#
# DATABASE is a copy that nothing changes meanwhile. What is found stands in /var/cache/rooms/NAME/news.json, for the page, and is handed to
# /etc/rooms/NAME.news, if that can be run, a line each. The states that the requests had, and the list, are in one file, /var/lib/rooms/NAME/news,
# so that a change is found once, whenever this is cut. Marks that somebody was told are empty files in /var/cache/rooms/NAME/told; those of no
# change that is listed are removed. A line for the journal counts what was found. README.md beside this has both forms.
use strict;

my $share = $ENV{ROOMS_SHARE} || '/usr/share/rooms';
require "$share/news/files.pl";
require "$share/front/room_names.pl";
require "$share/front/changes.pl";

my ($name, $database, $days) = @ARGV;
die "the words are: news.pl NAME DATABASE DAYS\n" if @ARGV != 3 or $days !~ /^[1-9]\d{0,3}$/;
my $kept = ($ENV{ROOMS_STATE} || '/var/lib/rooms') . "/$name/news";
my $folder = ($ENV{ROOMS_CALENDARS} || '/var/cache/rooms') . "/$name";
my $hook = ($ENV{ROOMS_ETC} || '/etc/rooms') . "/$name.news";
my $now = time;
my @fields = qw(handed second key kind id room mark from to by wish title);

# ---- what is kept: lines of `own` (numbers and position), `state` (a request) and `item` (a change), their fields separated by tabs

sub read_kept {
    my %kept = (states => {}, items => []);
    for my $line (read_lines($kept)) {
        my ($what, @values) = split /\t/, $line, -1;
        if    ($what eq 'own')   { @kept{qw(server primary count position made)} = @values }
        elsif ($what eq 'state') { $kept{states}{ shift @values } = \@values }
        elsif ($what eq 'item')  { my %item; @item{@fields} = @values; push @{ $kept{items} }, \%item }
    }
    return \%kept;
}

sub write_kept {
    my ($it) = @_;
    my @lines = join("\t", 'own', @$it{qw(server primary count position made)}) . "\n";
    push @lines, join("\t", 'state', $_, @{ $it->{states}{$_} }) . "\n" for sort keys %{ $it->{states} };
    push @lines, join("\t", 'item', @$_{@fields}) . "\n" for @{ $it->{items} };
    put_file($kept, 0600, @lines);
}

# ---- what changed

# Adds what was asked and cancelled since the last time, whose titles are not known; the own writes that are none of these are cancels.
sub add_made_and_cancelled {
    my ($own, $from) = @_;
    my @rooms = room_names($database);
    for my $id (map { "$own->{server}-$_" } $from + 1 .. $own->{count}) {
        next if $own->{states}{$id} or $own->{void}{$id};
        for my $room (@rooms) {
            $own->{states}{$id} = cancelled_state($database, $room, $id, '') // next;
            last;
        }
    }
}

# The key of a change: its request, and a second that no other change of it has.
sub key_of {
    my ($id, $items) = @_;
    my ($second) = sort { $b <=> $a } $now - 1, map { $_->{key} =~ /\.(\d+)$/ } grep { $_->{id} eq $id } @$items;
    return "$id." . ($second + 1);
}

sub item_of {
    my ($id, $kind, $old, $new, $items) = @_;
    my ($room, $place, $by, $mark, $wish, $title) = @$new;
    my $had = $kind eq 'final' ? $place : $old ? $old->[1] : '-';
    my %item = (
        handed => 0, second => $now, key => key_of($id, $items), kind => $kind, id => $id, room => $room, mark => $mark, by => $by, title => $title,
        from => $had =~ /^\d/ ? $had : '-', to => $place =~ /^\d/ ? $place : '-', wish => $kind =~ /^(lost|none)$/ ? $wish : '-',
    );
    return \%item;
}

# What is new of the requests, and the states as they are now; nothing where the database can't be read.
sub find_changes {
    my ($it) = @_;
    my $own = own_requests($database) or return;
    my $is_first = "$own->{server} $own->{primary}" ne join ' ', map { $_ // '' } @$it{qw(server primary)};
    my $states = $is_first ? {} : $it->{states};
    add_cancelled($database, $own, $states);
    add_made_and_cancelled($own, $it->{count}) unless $is_first;
    my @found;
    for my $id ($is_first ? () : keys %{ $own->{states} }) {
        my ($old, $new) = ($states->{$id}, $own->{states}{$id});
        my $kind = change_of($old, $new) // next;
        push @found, item_of($id, $kind, $old, $new, $it->{items});
    }
    my @sorted = sort { "$a->{from} $a->{wish} $a->{to}" cmp "$b->{from} $b->{wish} $b->{to}" or $a->{id} cmp $b->{id} } @found;
    my %next = (%$own, position => $own->{position} =~ tr/\n/ /r, items => [ $is_first && $it->{server} ? () : @{ $it->{items} }, @sorted ]);
    return (\%next, @sorted);
}

# ---- what others read

sub slot_json {
    my ($day, $start, $stop) = $_[0] =~ /^(\S+) ([\d:]+)-([\d:]+)$/ or return 'null';
    return '{"day":' . quoted($day) . ',"start":' . quoted($start) . ',"stop":' . quoted($stop) . '}';
}

sub item_json {
    my ($item) = @_;
    my @members = map { quoted($_) . ':' . quoted($item->{$_}) } qw(key id room title kind);
    push @members, map { quoted($_) . ':' . slot_json($item->{$_}) } qw(from to);
    push @members, '"wish":' . slot_json($item->{wish}) if $item->{kind} =~ /^(lost|none)$/;
    push @members, '"by":' . quoted($item->{by} eq '-' ? undef : $item->{by}), '"mark":' . quoted($item->{mark}), '"found":' . quoted(moment($item->{second}));
    return '{' . join(',', @members) . '}';
}

sub write_news {
    my ($it) = @_;
    my $head = '{"office":' . quoted($name) . ",\"server\":$it->{server},\"made\":" . quoted($it->{made});
    put_file("$folder/news.json", 0640, "$head,\"items\":[\n", join(",\n", map { item_json($_) } @{ $it->{items} }), "]}\n");
}

# Hands to the hook what it has not had; if there is none, nothing waits for one.
sub hand_over {
    my ($it) = @_;
    my @new = grep { !$_->{handed} } @{ $it->{items} } or return;
    if (-x $hook) {
        local $SIG{PIPE} = 'IGNORE';
        open my $lines, '|-', 'timeout', '60', $hook, $name or return;
        print $lines join("\t", @$_{qw(key kind id room mark)}, $_->{kind} eq 'none' ? $_->{wish} : $_->{from}, @$_{qw(to by)}, moment($_->{second}), $_->{title}), "\n" for @new;
        close $lines;
        if ($?) { print "news: $hook failed, and gets the same again\n"; return }
    }
    $_->{handed} = 1 for @new;
    write_kept($it);
}

sub remove_marks {
    my ($it) = @_;
    my %is_listed = map { $_->{key} => 1 } @{ $it->{items} };
    opendir my $told, "$folder/told" or return;
    for my $mark (readdir $told) { unlink "$folder/told/$mark" unless $mark =~ /^\.\.?$/ or $is_listed{$mark} }
}

# Takes groups of requests away whose last day is as long ago: it is the beginning of a group's name.
sub remove_groups {
    opendir my $groups, "$folder/groups" or return;
    for my $group (readdir $groups) { unlink "$folder/groups/$group" if $group =~ /^(\d{4}-\d\d-\d\d)\./ and $1 lt moment($now - 86400 * $days) }
}

sub report {
    my %words = (lost => 'lost the room', moved => 'moved', found => 'found a room', cancelled => 'cancelled', none => 'without a room', final => 'final');
    my %count;
    $count{ $_->{kind} }++ for @_;
    print 'news: ', join(', ', map { "$count{$_} $words{$_}" } grep { $count{$_} } qw(lost moved found cancelled none final)), "\n" if %count;
}

# ---- from here on, in order

my $it = read_kept();
my $is_same = defined $it->{position} && ask('position', $database) =~ tr/\n/ /r eq $it->{position};
my ($next, @found) = $is_same ? $it : find_changes($it);
die "$database can't be read\n" unless $next;
my @young = grep { $_->{second} > $now - 86400 * $days } @{ $next->{items} };
my $is_changed = @found || @young != @{ $next->{items} } || !defined $it->{made} || !-e "$folder/news.json";
$next->{items} = \@young;
$next->{made} = $is_changed ? moment($now) : $it->{made};
write_kept($next) if $is_changed or not $is_same;
write_news($next) if $is_changed;
report(@found);
hand_over($next);
remove_marks($next);
remove_groups();
