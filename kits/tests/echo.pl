#!/usr/bin/perl
# Says what it was told.
use strict;
use warnings;
use FindBin;
use lib "$FindBin::Bin/../perl";
use ToolBus qw(appl);

my $tool = ToolBus->new;
$tool->on_eval(sub { $_[0] });
$tool->on_eval('look-up' => sub { my ($word, $place) = @_; appl('found', $word, $place) });
$tool->on_eval(status => sub { $tool->value(appl('ready')); ToolBus::LATER });
$tool->on_do(sub { $tool->event(appl('did', @_)) });
$tool->on_do(
    say => sub {
        my ($text) = @_;
        print "$text\n";
        $tool->event(appl('said'));
    }
);
$tool->on_ack_event(sub { $tool->event(appl('acked', [@_])) });
$tool->on_ack_event(bid => sub { my ($price, @others) = @_; $tool->event(appl('bid-acked', $price, \@others)) });
$tool->on_terminate(sub { $tool->event(appl('ends', @_)) });
$tool->run;
