# Net::Stomp with a broker, step by step: each line names a step and its outcome.
# usage: runs/others/net_stomp.pl PORT     the status is 0 if each step was as it should be
use strict;
use warnings;
use Net::Stomp;

my $port = $ARGV[0];
my @steps;

sub step { push @steps, [@_] }

sub name_of { return "/queue/perl.$_[0].$$" }

# It asks for no version by itself.
sub client {
    my $client = Net::Stomp->new({hostname => '127.0.0.1', port => $port, timeout => 10});
    my $came = $client->connect({'accept-version' => '1.2', host => 'h'});
    die "not connected\n" unless $came && $came->command eq 'CONNECTED';
    return $client;
}

sub ask {
    my ($client, $command, %headers) = @_;
    $client->send_frame(Net::Stomp::Frame->new({command => $command, headers => {%headers}}));
}

sub take {
    my ($client, $command) = @_;
    my $frame = $client->receive_frame({timeout => 10}) or die "no $command came\n";
    die "$command was to come, and came " . $frame->as_string . "\n" unless $frame->command eq $command;
    return $frame;
}

sub is_quiet { return !$_[0]->can_read({timeout => 0.2}) }

sub subscribe {
    my ($client, $name, $mode) = @_;
    $client->subscribe({destination => $name, id => '0', ack => $mode, receipt => 's'});
    take($client, 'RECEIPT');
}

sub put {
    my ($client, $name, @bodies) = @_;
    for (@bodies) {
        die "no receipt\n" unless $client->send_with_receipt({destination => $name, body => $_, bytes_message => 1});
    }
}

sub filled {
    my ($what, @bodies) = @_;
    put(client(), name_of($what), @bodies);
    return name_of($what);
}

sub bodies_of {
    my ($client, $count) = @_;
    return join ' ', map { take($client, 'MESSAGE')->body } 1 .. $count;
}

# An answer counts by the `ack` of its MESSAGE, which it sends where it is given as `id`.
sub answer {
    my ($client, $how, $frame, %more) = @_;
    $client->$how({frame => $frame, id => $frame->headers->{ack}, %more});
}

sub go_away { $_[0]->socket->close }

# The message of the ERROR that a client gets, after which the connection ends.
sub refused {
    my $client = shift;
    my $message = take($client, 'ERROR')->headers->{message};
    die "the connection stays open\n" if $client->socket->sysread(my $more, 1);
    return $message;
}

step 'connects' => sub { client() };

step 'sends with a receipt' => sub { client()->send_with_receipt({destination => name_of('receipt'), body => 'x'}) };

step 'mode auto: messages come in order, and are gone' => sub {
    my @bodies = map { "m$_" } 0 .. 19;
    my $name = filled('auto', @bodies);
    my $one = client();
    $one->subscribe({destination => $name, id => '0', ack => 'auto'});
    my $came = bodies_of($one, 20);
    $one->disconnect;
    my $other = client();
    subscribe($other, $name, 'auto');
    return $came eq "@bodies" && is_quiet($other);
};

for my $case (['client', 'counts for all before it', 'm3 m4', 2], ['client-individual', 'counts for its message alone', 'm0 m1 m3 m4', 4]) {
    my ($mode, $counts, $left, $count) = @$case;
    step "mode $mode: an ACK $counts, the others are redelivered" => sub {
        my $name = filled($mode, map { "m$_" } 0 .. 4);
        my $one = client();
        subscribe($one, $name, $mode);
        my @frames = map { take($one, 'MESSAGE') } 1 .. 5;
        answer($one, 'ack', $frames[2], receipt => 'a');
        take($one, 'RECEIPT');
        go_away($one);
        my $other = client();
        subscribe($other, $name, $mode);
        return bodies_of($other, $count) eq $left && is_quiet($other);
    };
}

step 'a NACK brings its message again' => sub {
    my $one = client();
    subscribe($one, filled('nack', 'm'), 'client-individual');
    my $first = take($one, 'MESSAGE');
    answer($one, 'nack', $first);
    my $second = take($one, 'MESSAGE');
    answer($one, 'ack', $second);
    return $second->message_id eq $first->message_id && $second->headers->{ack} ne $first->headers->{ack} && is_quiet($one);
};

step 'a transaction that is committed sends and acknowledges' => sub {
    my ($name, $answers) = (filled('commit', 'taken'), name_of('commit.answers'));
    my ($one, $other) = (client(), client());
    subscribe($one, $name, 'client-individual');
    subscribe($other, $answers, 'auto');
    ask($one, 'BEGIN', transaction => 't');
    answer($one, 'ack', take($one, 'MESSAGE'), transaction => 't');
    $one->send_with_receipt({destination => $answers, body => $_, transaction => 't'}) for 'a', 'b';
    my $early = is_quiet($other);
    ask($one, 'COMMIT', transaction => 't', receipt => 'c');
    take($one, 'RECEIPT');
    go_away($one);
    my $again = client();
    subscribe($again, $name, 'auto');
    return $early && bodies_of($other, 2) eq 'a b' && is_quiet($again);
};

step 'its send_transactional is committed' => sub {
    my $one = client();
    $one->send_transactional({destination => name_of('transactional'), body => 'whole'}) or return;
    subscribe($one, name_of('transactional'), 'auto');
    return bodies_of($one, 1) eq 'whole';
};

step 'a transaction that is aborted does neither' => sub {
    my $name = filled('abort', 'kept');
    my $one = client();
    subscribe($one, $name, 'client-individual');
    ask($one, 'BEGIN', transaction => 't');
    answer($one, 'ack', take($one, 'MESSAGE'), transaction => 't');
    $one->send_with_receipt({destination => $name, body => 'never', transaction => 't'});
    ask($one, 'ABORT', transaction => 't', receipt => 'a');
    take($one, 'RECEIPT');
    go_away($one);
    my $other = client();
    subscribe($other, $name, 'auto');
    return bodies_of($other, 1) eq 'kept' && is_quiet($other);
};

step 'a body of all octets, NUL among them, comes as it was sent' => sub {
    my $body = join('', map { chr } 0 .. 255) x 4;
    my $one = client();
    subscribe($one, filled('binary', $body), 'auto');
    return take($one, 'MESSAGE')->body eq $body;
};

step 'headers with colons, newlines and backslashes, which the program escapes, come as they were sent' => sub {
    my ($one, $name) = (client(), name_of('headers'));
    $one->send_with_receipt({destination => $name, body => 'x', one => 'a\\cb', two => 'c\\nd', three => 'e\\\\f'});
    subscribe($one, $name, 'auto');
    my $came = take($one, 'MESSAGE')->headers;
    return $came->{one} eq 'a\\cb' && $came->{two} eq 'c\\nd' && $came->{three} eq 'e\\\\f';
};

step 'bodies of 1,048,576 octets come whole' => sub {
    my @bodies = map { chr(97 + $_) x 1_048_576 } 0 .. 9;
    my $one = client();
    $one->subscribe({destination => filled('large', @bodies), id => '0', ack => 'auto'});
    return bodies_of($one, 10) eq join(' ', @bodies);
};

step 'a header with a colon, which it sends as it is, gets ERROR 20' => sub {
    my $one = client();
    $one->send({destination => name_of('colon'), body => 'x', odd => 'a:b'});
    return refused($one) eq '20 BadFrame';
};

step 'its ack without an id, as of 1.1, gets ERROR 24' => sub {
    my $one = client();
    subscribe($one, filled('bare', 'x'), 'client');
    $one->ack({frame => take($one, 'MESSAGE')});
    return refused($one) eq '24 MissingHeader';
};

step 'its subscribe without an id, as of 1.0, gets ERROR 24' => sub {
    my $one = client();
    $one->subscribe({destination => name_of('bare')});
    return refused($one) eq '24 MissingHeader';
};

step 'its connect without a version gets ERROR 24' => sub {
    my $one = Net::Stomp->new({hostname => '127.0.0.1', port => $port, timeout => 10});
    my $came = $one->connect({login => 'u', passcode => 'p'});
    return $came->command eq 'ERROR' && $came->headers->{message} eq '24 MissingHeader';
};

step 'an ACK of no unanswered message gets ERROR 31' => sub {
    my $one = client();
    ask($one, 'ACK', id => '1000000000');
    return refused($one) eq '31 NoSuchAck';
};

step 'disconnects with a receipt, by a frame: its disconnect asks for none' => sub {
    my $one = client();
    ask($one, 'DISCONNECT', receipt => 'last');
    return take($one, 'RECEIPT')->headers->{'receipt-id'} eq 'last' && !$one->socket->sysread(my $more, 1);
};

my $failed = 0;
$| = 1;
for (@steps) {
    my ($what, $do) = @$_;
    my $is_right = eval { $do->() };
    my $why = $@ ? ": $@" =~ s/\s+\z//r : '';
    $failed++ unless $is_right;
    print $is_right ? 'ok  ' : 'FAIL', " $what$why\n";
}
print @steps - $failed, ' of ', scalar @steps, " steps, Net::Stomp $Net::Stomp::VERSION\n";
exit($failed ? 1 : 0);
