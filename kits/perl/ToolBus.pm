package ToolBus;

# A kit for tools of the ToolBus in Perl: terms, and an event loop.
#
#     use ToolBus qw(appl);
#
#     my $tool = ToolBus->new;
#     $tool->on_eval(plus => sub { my ($x, $y) = @_; $x + $y });
#     $tool->on_eval(sub { appl('unknown') });
#     $tool->run;
#
# A term is a Perl value:
#
#     a number          a scalar with an integer
#     a string          str('text'): an object that behaves as its text
#     a list            a reference to an array
#     a name            appl('plus', 1, 2), or appl('none') without arguments; also appl('true') and appl('false')
#
# Perl doesn't distinguish the number 12 from the string '12', so each string of a term is a ToolBus::Str.

use strict;
use warnings;
use Exporter 'import';
use File::Basename ();
use File::Spec     ();
use IO::Handle     ();
use Scalar::Util   ();

our @EXPORT_OK = qw(appl str read_line read_term write_term LATER);

use constant {
    MOST_SIZE       => 65_536,
    MOST_DEPTH      => 64,
    MOST_LINE_BYTES => 65_536,
    RANGE           => '-9223372036854775808 to 9223372036854775807',
};

# A handler of on_eval returns this if the tool calls value later.
use constant LATER => \'later';

my %ESCAPED = ('"' => '"', '\\' => '\\', n => "\n", r => "\r", t => "\t");
my %ESCAPE  = reverse %ESCAPED;

# Terms

# The term with this name and these arguments.
sub appl { my ($name, @args) = @_; return ToolBus::Appl->new($name, @args) }

# The string with this text, as a term.
sub str { my ($text) = @_; return ToolBus::Str->new($text) }

# Whether a number is in the range of terms. Its digits have no leading zeros.
sub _in_range {
    my ($sign, $digits) = @_;
    return length $digits < 19 || length $digits == 19 && $digits le ($sign ? '9223372036854775808' : '9223372036854775807');
}

sub _fail { my ($kind, $message, $at) = @_; die ToolBus::TermError->new($kind, $message, $at) }

sub _check_limits {
    my ($size, $depth) = @_;
    _fail('large', "the term is too large: its size is $size, the limit is ${\MOST_SIZE}") if $size > MOST_SIZE;
    _fail('deep', "the term is too deep: the limit is ${\MOST_DEPTH}") if $depth > MOST_DEPTH;
    return;
}

# The term that the text reads as. The text is bytes in UTF-8. Dies with a ToolBus::TermError if the text isn't a term or exceeds a limit.
sub read_term {
    my ($text) = @_;
    my $reader = ToolBus::Reader->new($text);
    my $term   = $reader->term;
    _check_limits($reader->{size}, $reader->{depth});
    return $term;
}

# The text of a term, in bytes. Dies with a ToolBus::TermError if the value isn't a term or exceeds a limit.
sub write_term { my ($term) = @_; return _texts($term) }

# The texts of terms that are within the limits together, separated by commas.
sub _texts {
    my @terms = @_;
    my $size  = 0;
    my $text  = join ',', map { _text($_, MOST_DEPTH, \$size) } @terms;
    _check_limits($size, 0);
    return $text;
}

# The text of a term of at most this depth. Adds to the size.
sub _text {
    my ($term, $depth, $size) = @_;
    _check_limits(0, MOST_DEPTH + 1) if $depth == 0;
    $$size++;
    if (!ref $term) {
        return _number_text($term) if defined $term && $term =~ /\A-?[0-9]+\z/;
        _fail('value', (defined $term ? "'$term'" : 'undef') . " isn't a term: use a whole number, str, appl or an array");
    }
    return '[' . join(',', map { _text($_, $depth - 1, $size) } @$term) . ']' if ref $term eq 'ARRAY';
    return _string_text($term->text, $size) if Scalar::Util::blessed($term) && $term->isa('ToolBus::Str');
    _fail('value', "$term isn't a term: use a whole number, str, appl or an array") unless Scalar::Util::blessed($term) && $term->isa('ToolBus::Appl');
    my $name = _name_text($term->name, $size);
    return $name unless $term->args;
    return "$name(" . join(',', map { _text($_, $depth - 1, $size) } $term->args) . ')';
}

sub _number_text {
    my ($number) = @_;
    my ($sign, $digits) = $number =~ /\A(-?)0*([0-9]+)\z/;
    _fail('value', "$number is out of range: the range is ${\RANGE}") unless _in_range($sign, $digits);
    return $digits eq '0' ? '0' : "$sign$digits";
}

sub _string_text {
    my ($string, $size) = @_;
    no warnings qw(surrogate non_unicode);
    if ($string =~ /([\x00-\x08\x0b\x0c\x0e-\x1f]|[\x{d800}-\x{dfff}]|[^\x{0}-\x{10ffff}])/) {
        _fail('value', sprintf 'a string can\'t have the character %#x, at index %d', ord $1, $-[0]);
    }
    utf8::encode($string);
    $$size += length $string;
    $string =~ s/([\\"\n\r\t])/\\$ESCAPE{$1}/g;
    return qq("$string");
}

sub _name_text {
    my ($name, $size) = @_;
    if ($name !~ /\A[a-z][A-Za-z0-9_-]*\z/) {
        _fail('value', "'$name' isn't a name: a name is a lower-case letter, then letters, digits, - and _");
    }
    $$size += length $name;
    return $name;
}

# Lines

# The word and the terms of a line from the bus without its newline. Dies with a ToolBus::TermError if the text isn't such a line.
# The limits apply to the terms in the line, without its word.
sub read_line {
    my ($text) = @_;
    my $reader = ToolBus::Reader->new($text);
    my $term   = $reader->term;
    my $word   = ref $term && ref $term ne 'ARRAY' && $term->isa('ToolBus::Appl') ? $term->name : '';
    _fail('value', 'the line begins with no word of the bus') unless $word =~ /\Arec-(?:eval|do|ack-event|terminate)\z/;
    my $count = () = $term->args;
    _fail('value', "$word can't have $count terms") if $count == 0 || $count > 1 && $word ne 'rec-ack-event';
    _check_limits($reader->{size} - 1 - length $word, $reader->{depth} - 1);
    return $word, $term->args;
}

# The event loop

# A tool on the bus: handlers for the lines that come in, and calls for the lines that go out. From here on, print writes to the
# standard error, in UTF-8, the standard input is empty, and programs that the tool starts inherit neither pipe of the bus.
sub new {
    my ($class) = @_;
    open my $input,  '<&', \*STDIN  or die "the standard input: $!\n";
    open my $output, '>&', \*STDOUT or die "the standard output: $!\n";
    open STDIN,  '<',  File::Spec->devnull or die "the empty input: $!\n";
    open STDOUT, '>&', \*STDERR            or die "the standard error: $!\n";
    binmode $_ for $input, $output;
    binmode $_, ':encoding(UTF-8)' for \*STDOUT, \*STDERR;
    $_->autoflush(1) for $output, \*STDOUT, \*STDERR;
    return bless {input => $input, output => $output, named => {}, general => {}, ended => 0}, $class;
}

# These methods add handlers: on_eval(plus => $handler) one for terms with this name, and on_eval($handler) one for all other terms. The
# first is called with the arguments of the first term, then the other terms. The second is called with the terms of the line.

# For rec-eval. The kit sends the result as snd-value, unless it is LATER.
sub on_eval { my ($self, @handler) = @_; return $self->_add('rec-eval', @handler) }

# For rec-do.
sub on_do { my ($self, @handler) = @_; return $self->_add('rec-do', @handler) }

# For rec-ack-event. Optional.
sub on_ack_event { my ($self, @handler) = @_; return $self->_add('rec-ack-event', @handler) }

# For rec-terminate. Optional. The kit calls it before the loop ends.
sub on_terminate { my ($self, @handler) = @_; return $self->_add('rec-terminate', @handler) }

sub _add {
    my ($self, $word, @handler) = @_;
    my $handler = pop @handler;
    if (@handler) { $self->{named}{$word}{$handler[0]} = $handler }
    else          { $self->{general}{$word} = $handler }
    return $self;
}

# Sends snd-value, after a handler of on_eval returned LATER.
sub value { my ($self, $term) = @_; return $self->_send('snd-value(' . _texts($term) . ')') }

# Sends snd-event with one term or more.
sub event {
    my ($self, @terms) = @_;
    _fail('value', 'snd-event takes one term or more') unless @terms;
    return $self->_send('snd-event(' . _texts(@terms) . ')');
}

# Sends snd-connect. If --connect started the tool, this line must come first.
sub connect { my ($self, $name) = @_; return $self->_send('snd-connect(' . _texts(appl($name)) . ')') }

# Sends snd-disconnect. The loop ends.
sub disconnect { my ($self) = @_; $self->{ended} = 1; return $self->_send('snd-disconnect') }

# Writes a line to the standard error.
sub log { my ($self, @values) = @_; print {*STDERR} File::Basename::basename($0), ": @values\n"; return }

# The characters of a text in UTF-8, or its bytes if it isn't well-formed.
sub _readable { my ($text) = @_; utf8::decode($text); return $text }

sub _send {
    my ($self, $line) = @_;
    my $length = length $line;
    _fail('large', "the line is too long: it has $length bytes, the limit is ${\MOST_LINE_BYTES}") if $length > MOST_LINE_BYTES;
    print {$self->{output}} "$line\n" or die "the bus has closed the tool's output\n";
    return;
}

# Handles lines until rec-terminate, and returns its term. If the input ends first, returns undef. Passes on errors in handlers.
sub run {
    my ($self) = @_;
    local $/ = "\n";
    while (!$self->{ended} && defined(my $text = readline $self->{input})) {
        chomp $text;
        my ($word, @terms) = eval { read_line($text) };
        if   (defined $word) { $self->_handle($word, @terms) }
        else                 { $self->log("ignored a line that no bus sends: $@:", _readable($text)) }
    }
    return $self->{reason};
}

sub _handle {
    my ($self, $word, @terms) = @_;
    if ($word eq 'rec-terminate') {
        $self->{ended}  = 1;
        $self->{reason} = $terms[0];
    }
    my ($handler, @values) = $self->_find($word, @terms);
    if ($word eq 'rec-eval') {
        die 'no handler for ', _readable("$word(" . _texts(@terms) . ')'), ": add one by on_eval\n" unless $handler;
        my $answer = $handler->(@values);
        $self->value($answer) unless ref $answer && Scalar::Util::refaddr($answer) == Scalar::Util::refaddr(LATER);
    }
    elsif ($handler)          { $handler->(@values) }
    elsif ($word eq 'rec-do') { $self->log('no handler for', _readable('rec-do(' . _texts(@terms) . '):'), 'add one by on_do') }
    return;
}

# The handler for the name of the first term, with what it is called with; else the one for all terms.
sub _find {
    my ($self, $word, $first, @others) = @_;
    if (Scalar::Util::blessed($first) && $first->isa('ToolBus::Appl')) {
        my $handler = $self->{named}{$word}{$first->name};
        return $handler, $first->args, @others if $handler;
    }
    return $self->{general}{$word}, $first, @others;
}

# A name with its arguments. As a text it is the text of the term. Only false is false.
package ToolBus::Appl;

use overload '""' => sub { ToolBus::_readable(ToolBus::write_term($_[0])) }, bool => sub { $_[0]->name ne 'false' || $_[0]->args }, fallback => 1;

sub new  { my ($class, $name, @args) = @_; return bless {name => $name, args => \@args}, $class }
sub name { my ($self) = @_; return $self->{name} }
sub args { my ($self) = @_; return @{$self->{args}} }

# A string of a term. It behaves as its text.
package ToolBus::Str;

use overload '""' => sub { $_[0]->text }, fallback => 1;

sub new  { my ($class, $text) = @_; return bless {text => "$text"}, $class }
sub text { my ($self) = @_; return $self->{text} }

# An error in the text of a term or of a line, or a value that has no text.
#
# The kind is 'syntax', 'real', 'integer', 'large', 'deep' or 'value'. For the first three, at is the byte, counted from 0.
package ToolBus::TermError;

use overload '""' => sub { $_[0]{message} }, fallback => 1;

sub new  { my ($class, $kind, $message, $at) = @_; return bless {kind => $kind, message => $message, at => $at}, $class }
sub kind { my ($self) = @_; return $self->{kind} }
sub at   { my ($self) = @_; return $self->{at} }

# Reads one term from left to right. It doesn't recurse, because a text can nest deeply.
package ToolBus::Reader;

sub new {
    my ($class, $text) = @_;
    utf8::encode($text) if utf8::is_utf8($text);
    pos($text) = 0;
    return bless {text => $text, size => 0, depth => 0}, $class;
}

sub _syntax_error {
    my ($self, $at) = @_;
    my $found = $at < length $self->{text} ? sprintf('byte %#x', ord substr $self->{text}, $at, 1) : 'the end of the text';
    return ToolBus::_fail('syntax', "syntax error at byte $at: found $found", $at);
}

# Skips whitespace, and returns the next byte, or no byte at the end.
sub _next {
    my ($self) = @_;
    $self->{text} =~ /\G[\t\n\r ]*/gc;
    return substr $self->{text}, pos $self->{text}, 1;
}

# Moves past the next byte.
sub _skip { my ($self) = @_; pos($self->{text})++; return }

sub _number {
    my ($self) = @_;
    my $start = pos $self->{text};
    $self->{text} =~ /\G(-?)0*([0-9]+)/gc or $self->_syntax_error($start + 1);
    my ($sign, $digits) = ($1, $2);
    ToolBus::_fail('real', "real number at byte $start: a number must be whole", $start) if $self->{text} =~ /\G\.[0-9]/;
    if (!ToolBus::_in_range($sign, $digits)) {
        ToolBus::_fail('integer', "number out of range at byte $start: the range is ${\ToolBus::RANGE}", $start);
    }
    return 0 + "$sign$digits";
}

# Reads a character of more than one byte. The ranges are those of well-formed UTF-8.
sub _wide {
    my ($self) = @_;
    my $start  = pos $self->{text};
    my $first  = ord substr $self->{text}, $start, 1;
    $self->_syntax_error($start) if $first < 0xc2 || $first > 0xf4;
    my $least = $first == 0xe0 ? 0xa0 : $first == 0xf0 ? 0x90 : 0x80;
    my $most  = $first == 0xed ? 0x9f : $first == 0xf4 ? 0x8f : 0xbf;
    my $count = $first >= 0xf0 ? 3 : $first >= 0xe0 ? 2 : 1;
    for my $at ($start + 1 .. $start + $count) {
        my $byte = $at < length $self->{text} ? ord substr $self->{text}, $at, 1 : 0;
        $self->_syntax_error($at) if $byte < $least || $byte > $most;
        ($least, $most) = (0x80, 0xbf);
    }
    pos($self->{text}) = $start + $count + 1;
    return substr $self->{text}, $start, $count + 1;
}

sub _string {
    my ($self) = @_;
    my $string = '';
    $self->_skip;
    while (1) {
        $string .= $1 if $self->{text} =~ /\G([\t\x20!#-\x5b\x5d-\x7f]+)/gc;
        my $at   = pos $self->{text};
        my $byte = substr $self->{text}, $at, 1;
        last if $byte eq '"';
        if ($byte eq '\\') {
            $string .= $ESCAPED{substr $self->{text}, $at + 1, 1} // $self->_syntax_error($at + 1);
            pos($self->{text}) = $at + 2;
        }
        elsif ($byte ge "\x80") { $string .= $self->_wide }
        else                    { $self->_syntax_error($at) }
    }
    $self->_skip;
    $self->{size} += length $string;
    utf8::decode($string);
    return ToolBus::str($string);
}

# Reads a term without parts. Or reads the beginning of a term with parts, and returns its closing bracket and its name, if it has one.
sub _head {
    my ($self) = @_;
    my $byte = $self->_next;
    $self->{size}++;
    return $self->_number if $byte =~ /\A[-0-9]/;
    return $self->_string if $byte eq '"';
    if ($byte eq '[') {
        $self->_skip;
        return undef, ']' if $self->_next ne ']';
        $self->_skip;
        return [];
    }
    $self->{text} =~ /\G([a-z][A-Za-z0-9_-]*)/gc or $self->_syntax_error(pos $self->{text});
    my $name = $1;
    $self->{size} += length $name;
    return ToolBus::appl($name) if $self->_next ne '(';
    $self->_skip;
    return undef, ')', $name;
}

# Adds a term to the innermost open one, and closes all that end behind it. Returns the last term that is closed. A part below the
# limit of depth isn't kept: the text is an error.
sub _close {
    my ($self, $term, $above) = @_;
    while (@$above) {
        my $around = $above->[-1];
        push @{$around->{parts}}, $term if @$above <= ToolBus::MOST_DEPTH + 1;
        my $byte = $self->_next;
        $self->_syntax_error(pos $self->{text}) if $byte ne ',' && $byte ne $around->{end};
        $self->_skip;
        last if $byte eq ',';
        pop @$above;
        $term = defined $around->{name} ? ToolBus::appl($around->{name}, @{$around->{parts}}) : $around->{parts};
    }
    return $term;
}

# Reads the whole text.
sub term {
    my ($self) = @_;
    my (@above, $term);
    do {
        $self->{depth} = @above + 1 if $self->{depth} <= @above;
        my ($head, $end, $name) = $self->_head;
        if ($end) { push @above, {end => $end, name => $name, parts => []} }
        else      { $term = $self->_close($head, \@above) }
    } while (@above);
    $self->_syntax_error(pos $self->{text}) if $self->_next ne '';
    return $term;
}

1;
