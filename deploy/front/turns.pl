# Waiting for a database that another command has, and who has it. Read by `rooms` in this folder where it has to wait, and by store.pl.

# The file systems of networks, by number of the device: the table of mounts has their kinds.
sub is_remote {
    my ($number) = @_;
    open my $mounts, '<', '/proc/self/mountinfo' or return 0;
    while (<$mounts>) {
        my @parts = split ' ';
        next if $parts[2] ne "0:$number";
        return / - (nfs|cifs|smb|9p|fuse|ceph|gfs|ocfs|lustre|afs)/ ? 1 : 0;
    }
    return 0;
}

# The process that holds a lock of `flock` on this file, and its words.
sub holder {
    my $place = lock_place(@_);
    open my $locks, '<', '/proc/locks' or return;
    while (<$locks>) {
        my (undef, $kind, undef, undef, $process, $where) = split ' ';
        next unless $kind eq 'FLOCK' and $where eq $place and $process != $$;
        open my $line, '<', "/proc/$process/cmdline" or next;
        local $/;
        my @words = split /\0/, <$line> // '';
        return ($process, @words) if @words;
    }
    return;
}

sub is_served {
    my ($process, undef, $command) = holder(@_);
    return defined $process && ($command // '') eq 'serve';
}

sub wait_seconds {
    my $wait = $ENV{ROOMS_WAIT} // 10;
    return $wait =~ /^\d{1,6}$/ ? $wait : 10;
}

# Waits for the lock of an open file, up to ROOMS_WAIT seconds, but not for `serve`. Questions without end beside each other would let nobody
# change anything: so a question first lets those go that wait to change something, for half a second.
sub wait_for_turn {
    my ($file, $how, @place) = @_;
    my $halves = 2 * wait_seconds();
    for (1 .. 50) {
        last if $how != 1 or $halves == 0 or not is_awaited(@place) or is_served(@place);
        select undef, undef, undef, 0.01;
    }
    return if flock $file, $how | 4;
    # a signal that came before `flock` is asked would break nothing off, so they come again and again
    local $SIG{ALRM} = sub { };
    my $bell = ring() or return;
    while ($halves-- > 0 and not is_served(@place)) {
        last if flock $file, $how;
        # 4 is EINTR: half a second is over
        last if $! != 4;
    }
    kill 'KILL', $bell;
    waitpid $bell, 0;
}

# A process that sends this one SIGALRM twice a second.
sub ring {
    my $front = $$;
    my $bell = fork // return 0;
    return $bell if $bell;
    while (getppid == $front) {
        select undef, undef, undef, 0.5;
        kill 'ALRM', $front;
    }
    kill 'KILL', $$;
}

1;
