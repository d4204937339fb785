#!/usr/bin/perl
# A tool that adds two numbers.
use strict;
use warnings;
use FindBin;
use lib $FindBin::Bin;
use ToolBus qw(appl);

my $tool = ToolBus->new;
$tool->on_eval(plus => sub { my ($x, $y) = @_; $x + $y });
$tool->on_eval(sub { appl('unknown') });
$tool->run;
