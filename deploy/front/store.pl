# Why a database, a file or an address can't be had: what the front looks at once the program refused or failed. Read by hints.pl.
use strict;

our ($folder, $program);
load('room_names.pl');
load('turns.pl');

sub folder_of {
    my ($path) = @_;
    return $path =~ m{^(.*/)[^/]*$} ? $1 : '.';
}

sub user { return scalar getpwuid($>) // $> }

sub owner_of {
    my ($path) = @_;
    my $owner = (stat $path)[4] // return 'nobody';
    return scalar getpwuid($owner) // $owner;
}

# ---- who has a database open

# What is said of a process by its words: the program's words stand behind the path of the front or the program.
sub shown {
    my ($process, @words) = @_;
    shift @words while @words > 1 and $words[0] =~ m{(^|/)(perl|env)$} || $words[0] =~ /^-/;
    $words[0] =~ s{.*/}{};
    $words[0] = 'rooms' if ($words[1] // '') =~ /^[a-z-]+$/ and $words[0] =~ /^rooms/;
    my $said = '`' . join(' ', @words[0 .. ($#words < 3 ? $#words : 3)]) . "`, process $process";
    return ($words[1] // '') eq 'serve' && defined $words[3] ? "$said: ask http://127.0.0.1:$words[3]/" : $said;
}

sub words_of {
    my ($process) = @_;
    open my $line, '<', "/proc/$process/cmdline" or return;
    local $/;
    return split /\0/, <$line> // '';
}

# The process that has this file open or serves it, among those that may be looked at.
sub opener {
    my ($path, $device, $inode) = @_;
    for my $fd (glob '/proc/[0-9]*/fd/*') {
        my ($process) = $fd =~ m{/proc/(\d+)/};
        next if $process == $$;
        my @stat = stat $fd;
        return $process if @stat and $stat[0] == $device and $stat[1] == $inode;
    }
    my ($name) = $path =~ m{([^/]*)$};
    for my $file (glob '/proc/[0-9]*/cmdline') {
        my ($process) = $file =~ m{/proc/(\d+)/};
        my @words = words_of($process);
        return $process if ($words[1] // '') eq 'serve' and ($words[2] // '') =~ m{(^|/)\Q$name\E$};
    }
    return;
}

# Who has a database locked, in words; nothing where nobody has.
sub in_use {
    my ($path) = @_;
    my ($device, $inode) = stat $path or return;
    my ($process, @words) = holder($device, $inode);
    return shown($process, @words) if defined $process and $process != $$;
    my $place = lock_place($device, $inode);
    open my $locks, '<', '/proc/locks' or return;
    while (<$locks>) {
        my (undef, $kind, undef, undef, $locker, $where) = split ' ';
        next if $where ne $place or $locker eq $$ or $kind eq 'FLOCK';
        $process = $locker > 0 ? $locker : opener($path, $device, $inode);
        @words = words_of($process) if defined $process;
        return @words ? shown($process, @words) : 'another program';
    }
    return;
}

# ---- files and folders

# The system's words where a file can't be opened in this way; nothing where it can.
sub open_fault {
    my ($path, $for_writing) = @_;
    my $flags = ($for_writing ? 2 : 0) | 0x800;    # O_RDWR or O_RDONLY, O_NONBLOCK
    return if sysopen(my $file, $path, $flags);
    my $words = "$!";
    return $! == 13 ? "you (" . user() . ") may not " . ($for_writing ? 'write' : 'read') . " $path, which belongs to " . owner_of($path) : "$path: $words";
}

# Why no file can be made in the folder of this path.
sub folder_fault {
    my ($path) = @_;
    my $folder = folder_of($path);
    return "there is no folder $folder" unless -e $folder;
    return "$folder is no folder" unless -d $folder;
    return if -w $folder and not is_read_only($folder);
    return "nothing can be written in $folder, which is mounted for reading alone" if is_read_only($folder);
    return "you (" . user() . ") may not write in the folder $folder, which belongs to " . owner_of($folder);
}

# How many KiB are left where this file lies, and whether it is mounted for reading alone.
sub space {
    my ($path) = @_;
    my $child = open(my $lines, '-|') // return;
    if (not $child) {
        open STDERR, '>', '/dev/null';
        exec 'df', '-Pk', '--', $path or exit 1;
    }
    my @lines = <$lines>;
    close $lines;
    return (split ' ', $lines[-1] // '')[3, 5];
}

sub is_read_only {
    my ($path) = @_;
    my (undef, $mount) = space($path);
    open my $mounts, '<', '/proc/mounts' or return 0;
    my $options = '';
    while (<$mounts>) {
        my @parts = split ' ';
        $options = $parts[3] if defined $mount and $parts[1] eq $mount;
    }
    return $options =~ /(^|,)ro(,|$)/;
}

# Where there is no room for what a command writes.
sub full {
    my ($path) = @_;
    my $size = (-s $path) // 0;
    my ($left) = space(-e $path ? $path : folder_of($path));
    return "the disk is full: $left KB are left for $path, and a change needs up to " . int(256 + 4 * $size / 1024) . ' KB; make room, and call it again'
        if defined $left and $left =~ /^\d+$/ and $left < 256 + 4 * $size / 1024;
    # of blocks of 512 bytes
    my $limit = `sh -c 'ulimit -f'`;
    return "this shell lets no file grow past " . int($limit / 2) . " KB: `ulimit -f unlimited` first, and call it again"
        if $limit =~ /^\d+$/ and $limit * 512 < $size + 1_000_000;
    return;
}

# What a file that is no database is.
sub is_another {
    my ($path) = @_;
    open my $file, '<', $path or return 0;
    my $head = '';
    sysread $file, $head, 16;
    return $head ne '' && $head ne "SQLite format 3\0";
}

# ---- refusal 25, for each database of a command

sub databases {
    my ($name, @words) = @_;
    return @words[0 .. ($name eq 'bridge' ? 1 : 0)];
}

sub cause_of {
    my ($changes, $path) = @_;
    return 'the name of the database is empty' if $path eq '';
    return "$path is a folder, and no database" if -d $path;
    if (not -e $path) {
        return folder_fault($path) // full($path) // (-l $path ? "$path is a link to nothing" : undef);
    }
    return "$path is no plain file, and no database" unless -f $path;
    my $user = in_use($path);
    return "$path is in use by $user" if defined $user;
    my $fault = open_fault($path, $changes) // (-e "$path-wal" ? open_fault("$path-wal", $changes) : $changes ? folder_fault($path) : undef);
    return $fault if defined $fault;
    return "$path is no database: it begins as another file does" if is_another($path);
    return "$path has more than one name (hard links), which a database may not have" if (stat $path)[3] > 1;
    return "$path-journal is there: another program changed $path and was killed; open it with sqlite3 once" if -s "$path-journal";
    return $changes ? full($path) : undef;
}

sub is_same {
    my @one = stat $_[0] or return 0;
    my @other = stat $_[1] or return 0;
    return $one[0] == $other[0] && $one[1] == $other[1];
}

sub cause {
    my ($name, @words) = @_;
    my @paths = databases($name, @words);
    return "$paths[0] and $paths[1] are the same file" if $name eq 'bridge' and is_same(@paths);
    for my $path (@paths) {
        my $cause = cause_of(turn_of($name) == 2, $path);
        return $cause if defined $cause;
    }
    return "$paths[0] was in use by another command for a moment, or is damaged: call it again; where this stays, docs/TROUBLE.md, on a damaged file";
}

# ---- refusal 26

sub no_replica {
    my ($name, @words) = @_;
    for my $path (databases($name, @words)) {
        if (not -e $path) {
            my ($meant) = nearest($path, glob folder_of($path) =~ s{^\.$}{}r . '*.db');
            return "there is no $path" . (defined $meant ? ": did you mean $meant?" : ';') . " `rooms init $path SERVER PRIMARY` makes a database";
        }
        return "$path is empty, and no database yet: `rooms init $path SERVER PRIMARY` makes one" if -z $path;
        if ($name eq 'init') {
            my ($server, $primary) = about($path);
            return "$path is there already, and is that of office $server with primary $primary: give this one another name" if defined $server;
        }
        next if ask('position', $path) =~ /^mp2 /;
        # a command that is refused for an empty file leaves a database without tables in it
        return "$path has no tables yet: `rooms init $path SERVER PRIMARY` makes them" if has_no_table($path);
        return "$path has other tables than those of rooms: it is another program's, or of a newer rooms";
    }
    return;
}

# ---- status 3

sub read_fault {
    my ($path) = @_;
    return 'the name of a file is empty' if $path eq '';
    return "there is no file $path" unless -e $path;
    return "$path is a folder" if -d $path;
    my $fault = open_fault($path, 0);
    return $fault if defined $fault;
    return "$path has more than 16 MiB: export fewer lines at once" if -s $path > 16 * 1024 * 1024;
    return;
}

sub write_fault {
    my ($path) = @_;
    return 'the name of a file is empty' if $path eq '';
    return "$path is a folder" if -d $path;
    return -f $path ? open_fault($path, 1) // full($path) : -e $path ? "$path takes no text" : folder_fault($path) // full($path);
}

# A socket of this machine's IPv4, with the address in the form of the system; the host is looked up.
sub socket_to {
    my ($host, $port) = @_;
    require Socket;
    my $address = Socket::inet_aton($host) or return;
    socket my $socket, Socket::PF_INET(), Socket::SOCK_STREAM(), 0 or return;
    return ($socket, Socket::pack_sockaddr_in($port, $address));
}

sub port_fault {
    my ($port) = @_;
    my ($socket, $address) = socket_to('127.0.0.1', $port) or return;
    setsockopt $socket, Socket::SOL_SOCKET(), Socket::SO_REUSEADDR(), 1;
    # nobody could connect to a socket that doesn't listen
    return if bind $socket, $address;
    return "port $port can't be had for you (" . user() . '): ports below 1024 are root\'s' if $! == 13;
    for my $file (glob '/proc/[0-9]*/cmdline') {
        my ($process) = $file =~ m{/proc/(\d+)/};
        my @words = words_of($process);
        next unless ($words[1] // '') eq 'serve' and ($words[3] // '') eq $port;
        return "port $port is taken by " . shown($process, @words) =~ s/: ask .*//r . ': give another port';
    }
    return "port $port is taken by another program (`ss -ltnp 'sport = :$port'` as root names it): give another port";
}

sub peer_fault {
    my ($word) = @_;
    my ($host, $port) = $word =~ m{^http://\[?([^/\]]*?)\]?(?::(\d+))?/?$}i or return;
    my ($socket, $address) = socket_to($host, $port // 80);
    return "no machine is known by the name '$host'" unless defined $socket;
    local $SIG{ALRM} = sub { };
    alarm 3;
    my $met = connect $socket, $address;
    my $words = $! == 4 ? 'no reply in three seconds' : "$!";
    alarm 0;
    return "nothing serves at $word ($words): `rooms serve` there, or a tunnel to it, comes first" unless $met;
    return "$word broke off, or what answers there is no office: call it again (an exchange needs three connections of `serve`)";
}

sub fault {
    my ($line, $name, @words) = @_;
    if ($line eq 'fault file' or $name eq 'rehearse') {
        my @faults = $name eq 'export' ? (read_fault($words[1]), write_fault($words[2])) : (read_fault($words[$name eq 'import' ? 1 : 0]));
        my ($said) = grep { defined } @faults;
        return $said if defined $said;
        return 'a file could not be read or written' if $line ne '';
    }
    my $said = $name eq 'serve' ? port_fault($words[1]) : $name eq 'exchange' ? peer_fault($words[1]) : undef;
    return $said if defined $said;
    return 'the network failed: call it again' if $line eq 'fault network' or $name =~ /^(serve|exchange)$/;
    return 'standard output took no line (a full disk, or a reader that ended)'
        . ((turn_of($name) // 0) == 2 ? '; the command is done all the same: look at the sheet before you call it again' : '');
}

# ---- what can be known without the line, and before

# The line that the program printed where the front couldn't see it: asked for anew, where that changes nothing.
sub guessed_line {
    my ($name, @words) = @_;
    return 'refused 25 Store' if $name eq 'bridge' and is_same(@words);
    my @texts = $name eq 'rehearse' ? ask('rehearse', @words) : map { ask('position', $_) } turn_of($name) ? databases($name, @words) : ();
    for my $text (@texts) {
        return $1 if $text =~ /\A((?:bad script line|refused) .*)\n\z/;
    }
    return '';
}

# Whether `serve` will surely end at once.
sub foresees {
    my (undef, $database, $port, @more) = @_;
    return 1 if @more != 1 or "$port $more[0]" !~ /^[1-9]\d{0,4} [1-9]\d{0,8}$/ or $port > 65535;
    return 1 if not -s $database or defined cause_of(1, $database) or defined port_fault($port);
    return ask('position', $database) !~ /^mp2 /;
}

1;
