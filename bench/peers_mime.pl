#!/usr/bin/perl
# bench/peers_mime.pl JOB WORD..: the jobs of bench/peers by Perl's MIME::Tools.
# Bodies stay in memory, except where they are to be files. Those that aren't asked for aren't decoded.
use strict;
use warnings;
use MIME::Entity;
use MIME::Parser;

sub read_message {
    my (%options) = @_;
    my $parser = MIME::Parser->new;
    $parser->output_to_core(!$options{files});
    $parser->tmp_to_core(1);
    $parser->decode_bodies($options{decode} // 0);
    $parser->output_dir('.') if $options{files};
    return $parser->parse(\*STDIN);
}

# All sections with their paths, in order.
sub sections {
    my ($entity, $path, $found) = @_;
    push @$found, [$path, $entity];
    my $number = 0;
    sections($_, $path . '.' . ++$number, $found) for $entity->parts;
    return $found;
}

sub list_sections {
    for (@{ sections(read_message(), '1', []) }) {
        my ($path, $entity) = @$_;
        print join(' ', $path, $entity->mime_type, $entity->head->mime_encoding), "\n";
    }
}

sub list_json {
    require JSON::PP;
    my $json = JSON::PP->new->canonical;
    for (@{ sections(read_message(decode => 1), '1', []) }) {
        my ($path, $entity) = @$_;
        my $head = $entity->head;
        my %said = (path => $path, type => $entity->mime_type, encoding => $head->mime_encoding);
        if ($entity->is_multipart) {
            $said{boundary} = $head->multipart_boundary;
        } else {
            $said{charset} = $head->mime_attr('content-type.charset');
            $said{disposition} = $head->mime_attr('content-disposition');
            $said{filename} = $head->recommended_filename;
            $said{size} = length $entity->bodyhandle->as_string;
        }
        print $json->encode(\%said), "\n";
    }
}

sub extract {
    my ($wanted) = @_;
    for (@{ sections(read_message(decode => 1), '1', []) }) {
        $_->[1]->bodyhandle->print(\*STDOUT) if $_->[0] eq $wanted;
    }
}

sub add_file {
    my ($entity, $spec) = @_;
    my ($media, $path) = split /:/, $spec, 2;
    my $encoding = $media =~ m{^text/} ? 'quoted-printable' : 'base64';
    $entity->attach(Path => $path, Type => $media, Encoding => $encoding, Disposition => 'attachment');
}

sub pack_files {
    my $head = do { local $/; <STDIN> };
    my ($subject) = $head =~ /^Subject: *(.*)$/m;
    my $entity = MIME::Entity->build(Type => 'multipart/mixed', Subject => $subject);
    add_file($entity, $_) for @_;
    $entity->print(\*STDOUT);
}

sub attach {
    my $entity = read_message();
    add_file($entity, $_[0]);
    $entity->print(\*STDOUT);
}

my %jobs = (
    list => \&list_sections, json => \&list_json, extract => \&extract, pack => \&pack_files, attach => \&attach,
    unpack => sub { read_message(decode => 1, files => 1) },
);
my $job = shift @ARGV;
$jobs{$job}->(@ARGV);
