# Bars in SVG: of groups, each a list of a label, a part of 1 and a text. Read by rooms-report. There is nothing in the drawing that a program
# would run or fetch, whatever the labels are.
use strict;

my ($WIDE, $HIGH, $LEFT, $BAR) = (720, 26, 220, 380);

sub escaped {
    my ($text) = @_;
    my %as = ('&' => '&amp;', '<' => '&lt;', '>' => '&gt;', '"' => '&quot;', "'" => '&#39;');
    $text =~ s/([&<>"'])/$as{$1}/g;
    $text =~ s/[\x00-\x1f\x7f]/ /g;
    return $text;
}

# The first letters of a text of UTF-8; what is none of it is replaced.
sub shortened {
    my ($text, $most) = @_;
    $text =~ s/[^\x00-\x7f]/?/g unless utf8::decode($text);
    $text = substr($text, 0, $most - 3) . '...' if length $text > $most;
    utf8::encode($text);
    return $text;
}

sub text_at {
    my ($x, $y, $text, $more) = @_;
    return sprintf '<text x="%d" y="%d"%s>%s</text>' . "\n", $x, $y, $more // '', escaped($text);
}

sub bar_at {
    my ($y, $label, $part, $words) = @_;
    my $long = $part < 0 ? 0 : $part > 1 ? 1 : $part;
    return text_at($LEFT - 8, $y + 17, shortened($label, 30), ' text-anchor="end"')
        . sprintf('<rect x="%d" y="%d" width="%d" height="18" fill="#e6eaed"/><rect x="%d" y="%d" width="%d" height="18" fill="#1d4ed8"/>' . "\n", $LEFT, $y + 4, $BAR, $LEFT, $y + 4, $BAR * $long)
        . text_at($LEFT + $BAR + 8, $y + 17, $words);
}

sub drawing {
    my ($title, @groups) = @_;
    my ($y, $text) = (44, text_at(16, 28, $title, ' font-size="18" font-weight="bold"'));
    for my $group (@groups) {
        my ($head, @bars) = @$group;
        $text .= text_at(16, $y + 22, $head, ' font-weight="bold"');
        $y += 34;
        for (@bars) { $text .= bar_at($y, @$_); $y += $HIGH }
        $y += 12;
    }
    return sprintf('<svg xmlns="http://www.w3.org/2000/svg" viewBox="0 0 %d %d" width="%d" height="%d" font-family="sans-serif" font-size="13">' . "\n", $WIDE, $y, $WIDE, $y)
        . sprintf('<rect width="%d" height="%d" fill="#fff"/>' . "\n", $WIDE, $y) . $text . "</svg>\n";
}

1;
