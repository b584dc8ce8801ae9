#!/usr/bin/perl
# bench/peers_simple.pl JOB NAME [VALUE]: the jobs of bench/peers that are about fields, by Perl's Email::Simple.
# That package knows no mailboxes, so they are cut here, at each From-line that follows an empty line.
use strict;
use warnings;
use Email::Simple;

sub read_message {
    my $text = do { local $/; <STDIN> };
    return Email::Simple->new(\$text);
}

sub rename_fields {
    my ($name, $value) = @_;
    my $message = read_message();
    my @old = $message->header_raw($name);
    $message->header_raw_set($name);
    $message->header_raw_set("Old-$name", @old);
    $message->header_raw_set($name, $value);
    print $message->as_string;
}

# Calls a function with the From-line and the message, for each message of the mailbox.
sub each_message {
    my ($call) = @_;
    my ($from, $text, $empty) = ('', '', 1);
    while (my $line = <STDIN>) {
        if ($empty && $line =~ /^From /) {
            $call->($from, Email::Simple->new(\$text)) if length $from;
            ($from, $text) = ($line, '');
        } else {
            $text .= $line;
        }
        $empty = $line eq "\n";
    }
    $call->($from, Email::Simple->new(\$text)) if length $from;
}

my ($job, $name, $value) = @ARGV;
if ($job eq 'replace') {
    my $message = read_message();
    $message->header_raw_set($name, $value);
    print $message->as_string;
} elsif ($job eq 'rename') {
    rename_fields($name, $value);
} elsif ($job eq 'replace-each') {
    each_message(sub { my ($from, $message) = @_; $message->header_raw_set($name, $value); print $from, $message->as_string });
} elsif ($job eq 'print-each') {
    each_message(sub { print $_[1]->header_raw($name), "\n" });
} else {
    die "no such job: $job\n";
}
