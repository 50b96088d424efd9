# Running the program as a child, where hints are wanted: what it prints passes through or is read back, so that the line is known. Read by
# `rooms` in this folder.

our ($program);

# The status of a child, where the front ends as it ended.
sub end_as {
    my ($status) = @_;
    my $signal = $status & 127;
    if ($signal) {
        $SIG{$_} = 'DEFAULT' for qw(HUP INT QUIT TERM PIPE);
        kill $signal, $$;
        exit 128 + $signal;
    }
    exit $status >> 8;
}

# Copies what comes from the program to standard output; gives the end of it, and whether all of it could be written.
sub copy_through {
    my ($from) = @_;
    my ($end, $piece) = ('');
    while (1) {
        my $count = sysread $from, $piece, 65536;
        next if not defined $count and $! == 4;
        last unless $count;
        for (my $at = 0; $at < $count;) {
            my $written = syswrite STDOUT, $piece, $count - $at, $at;
            next if not defined $written and ($! == 4 or $! == 11);
            return ($end, 0) unless $written;
            $at += $written;
        }
        $end = substr $end . $piece, -400;
    }
    return ($end, 1);
}

# The end of what was written to standard output, where that is a file that can be read.
sub read_back {
    my ($start) = @_;
    my $at = sysseek(STDOUT, 0, 1) // return '';
    return '' if $at <= $start or not open my $file, '<', '/proc/self/fd/1';
    my $from = $at > $start + 400 ? $at - 400 : $start;
    sysseek $file, $from, 0;
    sysread $file, my $end, $at - $from;
    return $end // '';
}

# Runs the program as a child. What it prints passes through the front where the line has to be known and can't be read back: only for
# commands that print once all is done, and to terminals, so that an output that takes nothing has the same effect as ever.
sub run {
    my ($command) = @_;
    my $is_file = -f STDOUT;
    my $start = $is_file ? sysseek(STDOUT, 0, 1) // 0 : 0;
    my $is_once = turn_of($command) && $command !~ /^(serve|exchange|bridge)$/;
    my $through = defined fileno STDOUT && -e STDOUT && !$is_file && ($is_once || ($command =~ /^(exchange|bridge)$/ && -t STDOUT));
    my ($from, $to);
    pipe $from, $to or become() if $through;
    my $child = fork // become();
    if (not $child) {
        open STDOUT, '>&', $to or exit 4 if $through;
        become();
    }
    for my $signal (qw(HUP INT QUIT TERM)) {
        $SIG{$signal} = sub { kill $signal, $child } unless ($SIG{$signal} // '') eq 'IGNORE';
    }
    my ($end, $whole) = ('', 1);
    if ($through) {
        close $to;
        local $SIG{PIPE} = 'IGNORE';
        ($end, $whole) = copy_through($from);
        close $from;
    }
    1 while waitpid($child, 0) < 0 and $! == 4;
    my $status = $?;
    $end = read_back($start) if $is_file;
    $status = 3 << 8 if not $whole and not $status & 127;
    return ($status, $end);
}

# Whether something is to be said though it was done: there is no room, nothing was cancelled, nobody was served, or the day is past.
sub wants_hint {
    my ($name, $end, @words) = @_;
    return 1 if $name eq 'serve' and $words[2] eq '0';
    return 1 if $end =~ /^\d+-\d+ [TC] (logged|void \S+)\n\z/;
    my (undef, undef, undef, $day, $month, $year) = localtime;
    return $name eq 'book' && $words[3] lt sprintf '%04d-%02d-%02d', $year + 1900, $month + 1, $day;
}

1;
