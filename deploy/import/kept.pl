# What was asked for already: in a file beside the one that is imported, a line for each request with its key and its id (`?` while no reply
# came), and at the office, where a proxy keeps groups, in those that were asked for at a page or at another prompt.
use strict;
use utf8;
use IO::Handle;
use POSIX ();

our %asked;
my ($kept, $group);

sub content_of { return join ' ', @{ $_[0] }{qw(room day start length title)} }
sub key_of_item { my ($item) = @_; return $item->{key} ne '' ? $item->{key} : content_of($item) }

# A key in one word of a line.
sub key_in_line { my $key = $_[0]; utf8::encode($key); return $key =~ s/([\x00-\x1f%\x7f-\xff])/sprintf '%%%02x', ord $1/ger }

sub read_kept {
    my ($path) = @_;
    if (open my $file, '<', $path) {
        while (<$file>) { $asked{$1} = $2 if /^(.*)\t([1-9][0-9]?-[1-9][0-9]{0,8}|\?)$/ }
    }
    my $files = json_of(ask_office('/groups/')->{text});
    for my $each (ref $files eq 'ARRAY' ? @$files : ()) {
        next unless ref $each eq 'HASH' and ($each->{name} // '') =~ /\A\d{4}-\d\d-\d\d\.[a-z0-9]{8}\z/;
        read_group(json_of(ask_office("/groups/$each->{name}")->{text}));
    }
    return ref $files eq 'ARRAY';
}

sub read_group {
    my ($read) = @_;
    my $items = ref $read eq 'HASH' ? $read->{items} : [];
    for my $item (ref $items eq 'ARRAY' ? @$items : ()) {
        next unless ref $item eq 'HASH' and ($item->{id} // '') =~ /\A[1-9][0-9]?-[1-9][0-9]{0,8}\z/ and ($item->{state} // '') ne 'cancelled';
        next if grep { !defined $item->{$_} || ref $item->{$_} } qw(room day start length title);
        $asked{ key_in_line(key_of_item({ %$item, key => $item->{key} // '' })) } //= $item->{id};
    }
}

# A line is on the disk before the next request goes out.
sub keep_line {
    my ($path, $item, $id) = @_;
    open my $file, '>>', $path or die "rooms-import: $path can't be written: $!\n";
    print $file key_in_line(key_of_item($item)), "\t$id\n" or die "rooms-import: $path can't be written: $!\n";
    $file->flush && $file->sync or die "rooms-import: $path can't be written: $!\n";
    close $file;
    $asked{ key_in_line(key_of_item($item)) } = $id;
}

# Keeps what this run asked for as a group at the office, so that a desk can look at it and cancel it as one. Gives what went wrong.
sub keep_group {
    my ($title, @items) = @_;
    return '' unless @items;
    my ($last) = sort { $b cmp $a } map { $_->{day} } @items;
    $group //= join '', map { ('a' .. 'z', 0 .. 9)[ int rand 36 ] } 1 .. 8;
    my @kept = map { my $item = $_; +{ (map { $_ => "$item->{$_}" } qw(room day start title id state)), length => $item->{length} + 0, $item->{key} ne '' ? (key => $item->{key}) : () } } @items;
    my $text = JSON::PP->new->utf8->canonical->encode({ title => $title, made => POSIX::strftime('%Y-%m-%dT%H:%M:%SZ', gmtime), items => \@kept });
    my $reply = ask_office("/groups/put/$last.$group", $text, 'PUT');
    return $reply->{status} =~ /^20[14]$/ ? '' : "status $reply->{status}";
}

1;
