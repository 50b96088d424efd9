# Writes a mail to whoever gave an address for a request, each time that something became of it:
#
#     perl mail.pl NAME FROM
#
# FROM is the address that mails are from. Addresses come as files of the proxy, /var/cache/rooms/NAME/mail/ID, and are taken from there into
# /var/lib/rooms/NAME/mail/records, with what each was told last; what became of requests is the file that news.pl keeps (its lines `state`). Whole
# mails stand in the folder `waiting` there until they are sent (`rooms-office mail`). A mail is written beside its place, then the records say that it
# was told, then it is put in its place: so each change gives one mail, whenever this is cut. README.md beside this has the forms.
use strict;
use Fcntl qw(O_RDONLY O_NOFOLLOW O_NONBLOCK LOCK_EX);

my $share = $ENV{ROOMS_SHARE} || '/usr/share/rooms';
require "$share/news/files.pl";
require "$share/front/changes.pl";
require "$share/news/mail_message.pl";
require "$share/news/mail_words.pl";

my ($name, $sender) = @ARGV;
die "the words are: mail.pl NAME FROM\n" if @ARGV != 2 or $sender !~ /^[^\s<>@]+@[^\s<>@]+$/;
my $state = ($ENV{ROOMS_STATE} || '/var/lib/rooms') . "/$name";
my $cache = ($ENV{ROOMS_CALENDARS} || '/var/cache/rooms') . "/$name";
my ($records, $waiting, $drop) = ("$state/mail/records", "$state/mail/waiting", "$cache/mail");
my $settings = ($ENV{ROOMS_ETC} || '/etc/rooms') . "/$name.rooms.json";
my $now = time;
my $DAY = 86400;
my $ID = qr/[1-9]\d?-[1-9]\d{0,8}/;
# the letters of a mail address, of which none means anything to a shell or a mail program
my $ADDRESS = qr/(?!.{255})[A-Za-z0-9_][A-Za-z0-9.!#\$&'*+\/=?^_{}~-]{0,63}\@[A-Za-z0-9](?:[A-Za-z0-9-]{0,61}[A-Za-z0-9])?(?:\.[A-Za-z0-9](?:[A-Za-z0-9-]{0,61}[A-Za-z0-9])?)*/;
my @fields = qw(id since address waits count had room place by mark wish title);

# ---- what is kept: a line `own` with the numbers of the office, and a line `to` for each address, its fields separated by tabs. `waits`: it
# was said at once that there is no room. `count` is how many mails were written; `had` the slot that was told last; and then the state that was told

sub read_states {
    my %it = (states => {}, count => 0);
    for (read_lines("$state/news")) {
        my ($what, @values) = split /\t/, $_, -1;
        if    ($what eq 'own')   { @it{qw(server primary count)} = @values }
        elsif ($what eq 'state') { $it{states}{ shift @values } = \@values }
    }
    return \%it;
}

# The addresses by request; none of those that another replica of this name was given.
sub read_records {
    my ($own) = @_;
    my ($head, @lines) = read_lines($records);
    if (($head // '') ne $own) { unlink $records; return {} }
    my %records;
    for (@lines) {
        my ($what, @values) = split /\t/, $_, -1;
        my %record;
        @record{@fields} = @values;
        $records{ $record{id} } = \%record if $what eq 'to';
    }
    return \%records;
}

sub write_records {
    my ($own, $it) = @_;
    put_file($records, 0600, "$own\n", map { join("\t", 'to', @{ $it->{$_} }{@fields}) . "\n" } sort keys %$it);
}

# ---- addresses come in

# What a file of the proxy has, which may be anything.
sub dropped_text {
    my ($path) = @_;
    sysopen my $file, $path, O_RDONLY | O_NOFOLLOW | O_NONBLOCK or return '';
    return '' unless -f $file;
    read $file, my $text, 400;
    return $text;
}

# Takes the addresses that came, each of a request that this office may know; the files are gone once the records have them.
sub take_addresses {
    my ($it, $own, $numbers) = @_;
    opendir my $folder, $drop or return;
    my @names = readdir $folder;
    my %is_taken = map { $_ => 1 } grep { /^$ID\.taken\z/ } @names;
    for (grep { /^$ID\z/ && !$is_taken{"$_.taken"} } @names) {
        rename "$drop/$_", "$drop/$_.taken" and $is_taken{"$_.taken"} = 1;
    }
    for my $file (sort keys %is_taken) {
        my ($id) = $file =~ /^($ID)/;
        my ($address, $waits) = dropped_text("$drop/$file") =~ /^($ADDRESS)( none)?\n?\z/;
        my $number = $id =~ s/^$numbers->{server}-//r;
        if (!defined $address or $number eq $id or $number > $numbers->{count} + 1000) { print "mail: what came as an address for $id can't be used\n" }
        elsif (!$it->{$id} or $it->{$id}{address} ne $address) {
            my $since = $it->{$id} && $it->{$id}{since} >= $now ? $it->{$id}{since} + 1 : $now;
            $it->{$id} = { id => $id, since => $since, address => $address, waits => $waits ? 1 : 0, count => 0, had => '-', map { $_ => '-' } @fields[6 .. 11] };
        }
    }
    write_records($own, $it) if %is_taken;
    unlink "$drop/$_" for keys %is_taken;
}

# ---- what is new for an address

sub told_state {
    my ($record) = @_;
    return $record->{place} eq '-' ? undef : [ @$record{qw(room place by mark wish title)} ];
}

# What has to be mailed, in a word of mail_words.pl, or nothing.
sub mail_of {
    my ($record, $new) = @_;
    my $old = told_state($record);
    my ($place, $mark) = @$new[1, 3];
    my $is_without = $record->{had} eq '-' && $record->{waits};
    return $place =~ /^\d/ ? ($mark eq 'C' ? 'final' : 'booked') : $place eq 'cancelled' ? 'cancelled' : $is_without ? undef : 'lost' unless $old;
    my $kind = change_of($old, $new) // return;
    return $kind unless $kind eq 'final' and $place !~ /^\d/;
    return $place eq 'none' && !$is_without ? 'without' : undef;
}

# Nothing comes any more: it was told that this is final, the day is over, or the office never had the request.
sub is_over {
    my ($record, $new) = @_;
    return $now > $record->{since} + $DAY unless $new;
    my ($place, $mark, $wish) = @$new[1, 3, 4];
    return 1 if $mark eq 'C' and $place !~ /^\d/;
    my ($day) = grep { /^\d/ } $place, $record->{had}, $wish, '9999';
    return $day lt substr moment($now - 2 * $DAY), 0, 10;
}

# ---- mails

# The name of a mail's file: those of earlier rounds go before, then those of one request in turn.
sub file_of { my ($record) = @_; return "$record->{since}.$record->{id}.$record->{count}" }

# Its Message-ID is the same for the same news, so that whoever gets it twice can drop the second one.
sub message_id {
    my ($record, $host) = @_;
    my ($place, $by, $mark) = map { s/[^A-Za-z0-9]//gr } @$record{qw(place by mark)};
    return "<$record->{id}.$record->{since}.$record->{count}.$place$by$mark\@$name.$host>";
}

sub head_of {
    my ($record, $subject, $office) = @_;
    my ($host) = $sender =~ /@(.*)/;
    return mailbox_field('From', $office, $sender) . field('To', $record->{address}) . text_field('Subject', $subject) . date_field($now)
        . field('Message-ID', message_id($record, $host)) . field('References', "<$record->{id}.$record->{since}\@$name.$host>")
        . "Auto-Submitted: auto-generated\nMIME-Version: 1.0\n";
}

sub mail_text {
    my ($record, $kind, $before, $office) = @_;
    my %news = (%$record, kind => $kind, before => $before, title => clean($record->{title}), label => clean($office->{labels}{ $record->{room} } // $record->{room}),
        zone => clean($office->{zone}), office => clean($office->{name}));
    my $calendar = join "\n", read_lines("$cache/$record->{room}.ics"), '';
    my $event = event_part($calendar, "$record->{id}\@$name", $record->{place} =~ /^\d/ ? $record->{place} : '', $sender);
    return message(head_of($record, subject_of(\%news), $news{office}), join("\n", text_lines(\%news), ''), $event);
}

# The record takes the new state; what has to be mailed is written beside its place. The name of the mail, or nothing.
sub news_for {
    my ($record, $new, $office) = @_;
    my $kind = mail_of($record, $new);
    my $before = $record->{had};
    @$record{qw(room place by mark wish title)} = @$new;
    $record->{had} = $record->{place} if $record->{place} =~ /^\d/;
    return unless defined $kind;
    $record->{count}++;
    my $file = file_of($record);
    put_file("$waiting/$file.written", 0600, mail_text($record, $kind, $before, $office));
    return $file;
}

# A mail that was written beside its place before this was cut is put there if the records have it, and else it is written again.
sub settle_written {
    my ($it) = @_;
    opendir my $folder, $waiting or return;
    for (grep { /\.(written|new)\z/ } readdir $folder) {
        my ($since, $id, $count) = /^(\d+)\.($ID)\.(\d+)\.written\z/;
        my $record = $it->{ $id // '' };
        if ($record and $record->{since} == $since and $record->{count} >= $count) { rename "$waiting/$_", "$waiting/$since.$id.$count" }
        else                                                                       { unlink "$waiting/$_" }
    }
}

# ---- from here on, in order

umask 077;
mkdir $_ for "$state/mail", $waiting;
open my $lock, '>>', "$records.lock" or die "$records.lock can't be written: $!\n";
flock $lock, LOCK_EX or die "$records.lock can't be locked: $!\n";
my $numbers = read_states();
exit 0 unless defined $numbers->{server};
my $own = join "\t", 'own', @$numbers{qw(server primary)};
my $it = read_records($own);
settle_written($it);
take_addresses($it, $own, $numbers);
my $office = %$it ? read_office($settings) : {};
my (@files, $is_changed);
for my $id (sort keys %$it) {
    my ($record, $new) = ($it->{$id}, $numbers->{states}{$id});
    next if !$new or join("\t", @$new) eq join "\t", @{ told_state($record) // [] };
    push @files, news_for($record, $new, $office) // ();
    $is_changed = 1;
}
my @over = grep { is_over($it->{$_}, $numbers->{states}{$_}) } keys %$it;
write_records($own, $it) if $is_changed;
rename "$waiting/$_.written", "$waiting/$_" for @files;
delete @$it{@over};
write_records($own, $it) if @over;
