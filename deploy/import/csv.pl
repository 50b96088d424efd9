# The lines of a CSV file as wishes, as at the page (readcsv.js). Its first line names the columns; commas, semicolons or tabs stand between the cells.
use strict;
use utf8;

my %names = (
    room => [qw(room location raum ort salle lieu)], day => [ 'day', 'date', 'start date', 'tag', 'datum', 'jour' ],
    start => [ 'start', 'start time', 'from', 'begin', 'beginn', 'von', 'début', 'de' ], stop => [ 'stop', 'end', 'end time', 'to', 'ende', 'bis', 'fin', 'à' ],
    length => [qw(length minutes duration dauer minuten durée)], title => [qw(title subject summary titel betreff titre objet)], id => [qw(id uid key)],
    end_day => [ 'end date', 'enddatum' ],
);

sub trimmed { return $_[0] =~ s/^\s+|\s+$//gr }

# The rows of cells, each with the number of its first line; `open` where quotes aren't closed.
sub csv_rows {
    my ($text) = @_;
    my ($head) = split /\r?\n|\r/, $text, 2;
    my ($separator) = sort { (() = ($head // '') =~ /\Q$b/g) <=> (() = ($head // '') =~ /\Q$a/g) } ',', ';', "\t";
    my (@rows, @cells, $cell, $line, $first, $is_quoted) = ();
    ($cell, $line, $first) = ('', 1, 1);
    my $end_row = sub {
        push @rows, { line => $first, cells => [ @cells, trimmed($cell) ], open => $is_quoted } if @cells or trimmed($cell) ne '';
        (@cells, $cell, $first) = ();
        ($cell, $first) = ('', $line);
    };
    while ($text =~ /(\r\n|\n|\r|"|\Q$separator\E|[^\r\n"\Q$separator\E]+)/g) {
        my $piece = $1;
        my $is_end = $piece =~ /[\r\n]/;
        $line++ if $is_end;
        if ($is_quoted) {
            if    ($piece ne '"')        { $cell .= $piece }
            elsif ($text =~ /\G"/gc) { $cell .= '"' }
            else                         { $is_quoted = 0 }
        }
        elsif ($piece eq '"' and trimmed($cell) eq '') { ($cell, $is_quoted) = ('', 1) }
        elsif ($piece eq $separator) { push @cells, trimmed($cell); $cell = '' }
        elsif ($is_end)              { $end_row->() }
        else                         { $cell .= $piece }
    }
    $end_row->();
    return @rows;
}

# The wishes of a file; or, as the second value, what is wrong with all of it.
sub csv_wishes {
    my ($head, @rows) = csv_rows($_[0]);
    my %column;
    for my $place ($head ? reverse 0 .. $#{ $head->{cells} } : ()) {
        my $cell = lc $head->{cells}[$place];
        for my $name (keys %names) { $column{$name} = $place if grep { $_ eq $cell } @{ $names{$name} } }
    }
    return ([], 'The first line has to name the columns: room, day, start, stop or length, title, and id if there is one')
      if grep({ !defined $column{$_} } qw(day start title)) or !(defined $column{stop} or defined $column{length});
    return [ map { csv_wish($_, \%column, scalar @{ $head->{cells} }) } @rows ];
}

sub csv_wish {
    my ($row, $column, $count) = @_;
    my @cells = @{ $row->{cells} };
    pop @cells while @cells > $count and $cells[-1] eq '';
    my $cell = sub { my $place = $column->{ $_[0] }; return defined $place ? $cells[$place] // '' : '' };
    my %wish = (line => $row->{line}, place => $cell->('room'), day => day_written($cell->('day')), title => $cell->('title') =~ s/\s+/ /gr, key => $cell->('id'), start => '', length => 0);
    my $end_day = $cell->('end_day');
    return { %wish, trouble => 'its quotes are not closed, and all that follows is within them' } if $row->{open};
    return { %wish, trouble => 'it has ' . @cells . " cells, and the first line $count" } if @cells > $count;
    return { %wish, trouble => quoted_word($cell->('day')) . ' is no day as 2026-06-30 or 30.6.2026' } if $wish{day} eq '';
    return { %wish, trouble => 'it ends on another day' } if $end_day ne '' and day_written($end_day) ne $wish{day};
    return { %wish, hours_written(map { $cell->($_) } qw(start stop length)) };
}

1;
