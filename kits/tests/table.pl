#!/usr/bin/perl
# Reads texts, a line each in hexadecimal, and says what each reads as: with the argument `terms` in the words of terms.txt, with
# `lines` in those of to-tool.txt. With `refuse NAME`, sends the wrong line of this name in kits/test.
# With `bare`, is a tool without handlers.
use strict;
use warnings;
use FindBin;
use lib "$FindBin::Bin/../perl";
use ToolBus qw(appl read_line read_term str write_term);

sub term_answer {
    my ($bytes) = @_;
    my $text = eval { write_term(read_term($bytes)) };
    return "term\t" . unpack 'H*', $text if defined $text;
    my $error = $@;
    return $error->kind . (defined $error->at ? ' ' . $error->at : '') . "\t";
}

sub line_answer {
    my ($bytes) = @_;
    my ($word, @terms) = eval { read_line($bytes) };
    return "bad\t" unless defined $word;
    return "$word\t" . unpack 'H*', "$word(" . join(',', map { write_term($_) } @terms) . ')';
}

sub refuse {
    my ($wrong) = @_;
    my $tool    = ToolBus->new;
    my $deep    = 1;
    $deep = [$deep] for 1 .. 64;
    my $around = [];
    push @$around, $around;
    no warnings 'surrogate';
    my %sends = (
        'longest'       => sub { $tool->event(str('a' x 65_523)) },
        'control'       => sub { $tool->event(str("\x01")) },
        'unicode'       => sub { $tool->event(str("a\x{d800}")) },
        'upper-name'    => sub { $tool->event(appl('A')) },
        'blank-name'    => sub { $tool->event(appl('a b')) },
        'empty-name'    => sub { $tool->event(appl('')) },
        'newline-name'  => sub { $tool->event(appl("a\n")) },
        'real'          => sub { $tool->event(1.5) },
        'above'         => sub { $tool->event('9223372036854775808') },
        'below'         => sub { $tool->event('-9223372036854775809') },
        'deep'          => sub { $tool->value($deep) },
        'cycle'         => sub { $tool->value($around) },
        'long'          => sub { $tool->event(str('a' x 65_524)) },
        'large'         => sub { $tool->event(str('a' x 65_536)) },
        'connect-upper' => sub { $tool->connect('Ed') },
        'connect-term'  => sub { $tool->connect('ed(1)') },
        'none'          => sub { $tool->event },
        'no-term'       => sub { $tool->event('text') },
        'no-part'       => sub { $tool->event([1, undef]) },
    );
    return if eval { $sends{$wrong}(); 1 };
    print {*STDERR} $@->kind, "\n";
    exit 1;
}

my ($word, $wrong) = @ARGV;
if ($word eq 'refuse') {
    refuse($wrong);
}
elsif ($word eq 'bare') {
    ToolBus->new->run;
}
else {
    my $answer = $word eq 'lines' ? \&line_answer : \&term_answer;
    while (my $text = <STDIN>) {
        chomp $text;
        print $answer->(pack 'H*', $text), "\n";
    }
}
