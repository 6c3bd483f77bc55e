#!/usr/bin/env perl
# Reads a text by a plain grammar with Marpa, character by character: marpa.pl recognise|tree GRAMMAR TEXT.
# `tree` also writes the document of the tree that Marpa gives first.
use strict;
use warnings;
use JSON::PP;
use Marpa::R2;
use POSIX ();

my ($mode, $grammar_name, $text_name) = @ARGV;
my $plain = decode_json(contents($grammar_name));
my $text = contents($text_name);
utf8::decode($text);

my $grammar = Marpa::R2::Thin::G->new({ if => 1 });
$grammar->force_valued();
my %symbol;            # Marpa's numbers of the symbols
my @production;        # the productions by Marpa's numbers of them
add($_) for @{ $plain->{productions} };
# The end of the text is a token too: where it is expected, the text is read.
add([ 'top', [ $plain->{start}, 'end' ], [ 1, 0 ] ]);
$grammar->start_symbol_set(symbol('top'));
$grammar->precompute();
my $recogniser = Marpa::R2::Thin::R->new($grammar);
recognise();
print_document(tree()) if $mode eq 'tree';
print "yes\n" if $mode ne 'tree';
STDOUT->flush();
# No time for taking a deep tree apart.
POSIX::_exit(0);

sub contents {
    my ($name) = @_;
    open my $file, '<:raw', $name or die "cannot read $name\n";
    local $/ = undef;
    return scalar <$file>;
}

sub symbol {
    my ($name) = @_;
    $symbol{$name} = $grammar->symbol_new() if !defined $symbol{$name};
    return $symbol{$name};
}

sub add {
    my ($production) = @_;
    my ($left, $right) = @$production;
    $production[ $grammar->rule_new(symbol($left), [ map { symbol($_) } @$right ]) ] = $production;
    return;
}

# The value of a token is its character's number and 1, since 0 is no value.
sub recognise {
    my %token = map { $_ => symbol($plain->{classes}{$_}) } keys %{ $plain->{classes} };
    $recogniser->start_input();
    while ($text =~ /(.)/gs) {
        step($token{$1}, ord($1) + 1);
    }
    step(symbol('end'), 1);
    return;
}

sub step {
    my ($token, $value) = @_;
    $recogniser->alternative($token, $value, 1) == 0 or die "not read\n";
    $recogniser->earleme_complete();
    return;
}

# A node is the name of its symbol and its parts: nodes, and numbers of shown characters.
sub tree {
    my $bocage = Marpa::R2::Thin::B->new($recogniser, $recogniser->latest_earley_set());
    my $tree = Marpa::R2::Thin::T->new(Marpa::R2::Thin::O->new($bocage));
    $tree->next();
    my $valuator = Marpa::R2::Thin::V->new($tree);
    my %name_of = reverse %symbol;
    my @stack;
    while (my ($type, @data) = $valuator->step()) {
        if ($type eq 'MARPA_STEP_TOKEN') {
            $stack[ $data[2] ] = $data[1] - 1;
        }
        elsif ($type eq 'MARPA_STEP_RULE') {
            my ($left, undef, $shown) = @{ $production[ $data[0] ] };
            $stack[ $data[1] ] = [ $left, map { $shown->[$_] ? $stack[ $data[1] + $_ ] : () } 0 .. $#$shown ];
        }
        elsif ($type eq 'MARPA_STEP_NULLING_SYMBOL') {
            # Marpa gives no tree below a symbol that derives nothing. In these grammars there is no element below it.
            $stack[ $data[1] ] = [ $name_of{ $data[0] } ];
        }
    }
    return $stack[0];
}

# Goes over the tree with a list of what is to be done; an undefined item closes what was opened last. The front of an element is
# written when it closes, since its attributes may come late.
sub print_document {
    my @todo = @_;
    my (@out, @open, $value);
    while (@todo) {
        my $node = pop @todo;
        if (!defined $node) {
            close_node(\@out, \@open, \$value);
        }
        elsif (!ref $node) {
            defined $value ? ($value .= escaped($node, 1)) : push @out, escaped($node, 0);
        }
        else {
            my ($symbol, @parts) = @$node;
            my ($kind, $name) = @{ $plain->{symbols}{$symbol} // ['hidden'] };
            # Within an attribute text alone counts.
            if ($kind ne 'hidden' && !defined $value) {
                push @todo, undef;
                push @open, { name => $name, place => scalar @out, attributes => '' };
                $kind eq 'attribute' ? ($value = '') : push @out, '';
            }
            push @todo, reverse @parts;
        }
    }
    binmode STDOUT, ':utf8';
    print @out, "\n";
    return;
}

sub close_node {
    my ($out, $open, $value) = @_;
    my $closed = pop @$open;
    my ($name, $place) = @$closed{qw(name place)};
    if (defined $$value) {
        $open->[-1]{attributes} .= qq( $name="$$value");
        $$value = undef;
        return;
    }
    my $empty = $place == $#$out;
    $out->[$place] = "<$name$closed->{attributes}" . ($empty ? '/>' : '>');
    push @$out, "</$name>" if !$empty;
    return;
}

sub escaped {
    my ($number, $in_value) = @_;
    return '&amp;' if $number == 0x26;
    return '&lt;' if $number == 0x3C;
    return '&gt;' if $number == 0x3E && !$in_value;
    return '&quot;' if $number == 0x22 && $in_value;
    return sprintf '&#x%X;', $number if $number == 0xD || ($in_value && ($number == 9 || $number == 0xA));
    return chr $number;
}
