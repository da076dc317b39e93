<?php
// The extension stomp of PHP with a broker, step by step: each line names a step and its outcome.
// usage: runs/others/php_stomp.php PORT     the status is 0 if each step was as it should be
//
// The extension takes two octets for the end of each frame, the NUL and a line end, which the standard leaves free and the broker doesn't
// write. So frames that come together lose their beginnings there: the steps have one frame under way at a time, but for those that say so.

$steps = [];

function step($what, $do)
{
    global $steps;
    $steps[$what] = $do;
}

function name_of($what)
{
    return "/queue/php.$what." . getmypid();
}

// It names no version by itself.
function client()
{
    global $argv;
    $client = new Stomp("tcp://127.0.0.1:" . $argv[1], "", "", ["accept-version" => "1.2", "host" => "h"]);
    $client->setReadTimeout(10);
    return $client;
}

function subscribed($name, $mode)
{
    $client = client();
    $client->subscribe($name, ["id" => "0", "ack" => $mode]);
    return $client;
}

function put($name, $body, $headers = [])
{
    $client = client();
    return $client->send($name, $body, $headers + ["receipt" => "p"]);
}

function take($client)
{
    $frame = $client->readFrame();
    if (!$frame) {
        throw new Exception("no frame came");
    }
    return $frame;
}

function is_quiet($client)
{
    usleep(200000);
    return !$client->hasFrame();
}

// Sends messages and takes each before the next: the frames.
function passed($name, $taker, $bodies)
{
    return array_map(function ($body) use ($name, $taker) {
        put($name, $body);
        return take($taker);
    }, $bodies);
}

function bodies_of($frames)
{
    return array_map(fn($frame) => $frame->body, $frames);
}

// An answer counts by the `ack` of its MESSAGE.
function of($frame, $more = [])
{
    return ["id" => $frame->headers["ack"]] + $more;
}

// The message of the ERROR that a client gets.
function refused($client)
{
    try {
        $client->readFrame();
    } catch (StompException $error) {
        return $error->getMessage();
    }
    return "";
}

step("connects", fn() => (bool) client());

step("sends with a receipt", fn() => put(name_of("receipt"), "x"));

step("mode auto: messages come in order, and are gone", function () {
    $name = name_of("auto");
    $bodies = array_map(fn($number) => "m$number", range(0, 19));
    $one = subscribed($name, "auto");
    $came = bodies_of(passed($name, $one, $bodies));
    unset($one);
    return $came === $bodies && is_quiet(subscribed($name, "auto"));
});

step("mode client: an ACK counts for all before it, another is redelivered", function () {
    $name = name_of("client");
    $one = subscribed($name, "client");
    $frames = passed($name, $one, ["m0", "m1", "m2", "m3"]);
    $one->ack($frames[2], of($frames[2], ["receipt" => "a"]));
    unset($one);
    $other = subscribed($name, "client");
    return take($other)->body === "m3" && is_quiet($other);
});

step("mode client-individual: an ACK counts for its message alone, another is redelivered", function () {
    $name = name_of("individual");
    $one = subscribed($name, "client-individual");
    $frames = passed($name, $one, ["m0", "m1", "m2", "m3"]);
    foreach ([0, 2, 3] as $at) {
        $one->ack($frames[$at], of($frames[$at], ["receipt" => "a"]));
    }
    unset($one);
    $other = subscribed($name, "client-individual");
    return take($other)->body === "m1" && is_quiet($other);
});

step("a NACK brings its message again", function () {
    $name = name_of("nack");
    $one = subscribed($name, "client-individual");
    [$first] = passed($name, $one, ["m"]);
    $one->nack($first, of($first));
    $second = take($one);
    $one->ack($second, of($second));
    $is_same = $second->headers["message-id"] === $first->headers["message-id"];
    return $is_same && $second->headers["ack"] !== $first->headers["ack"] && is_quiet($one);
});

step("a transaction that is committed sends and acknowledges", function () {
    [$name, $answers] = [name_of("commit"), name_of("commit.answers")];
    $one = subscribed($name, "client-individual");
    $other = subscribed($answers, "auto");
    [$frame] = passed($name, $one, ["taken"]);
    $one->begin("t");
    $one->ack($frame, of($frame, ["transaction" => "t"]));
    $one->send($answers, "answer", ["transaction" => "t", "receipt" => "s"]);
    $early = is_quiet($other);
    $one->commit("t", ["receipt" => "c"]);
    unset($one);
    return $early && take($other)->body === "answer" && is_quiet(subscribed($name, "auto"));
});

step("a transaction that is aborted does neither", function () {
    $name = name_of("abort");
    $one = subscribed($name, "client-individual");
    [$frame] = passed($name, $one, ["kept"]);
    $one->begin("t");
    $one->ack($frame, of($frame, ["transaction" => "t"]));
    $one->send($name, "never", ["transaction" => "t", "receipt" => "s"]);
    $one->abort("t", ["receipt" => "a"]);
    unset($one);
    $other = subscribed($name, "client-individual");
    return take($other)->body === "kept" && is_quiet($other);
});

step("a body of all octets, NUL among them, comes as it was sent", function () {
    $body = str_repeat(implode("", array_map("chr", range(0, 255))), 4);
    put(name_of("binary"), $body);
    return take(subscribed(name_of("binary"), "auto"))->body === $body;
});

step("headers with colons, newlines and backslashes, which the program escapes, come as they were sent", function () {
    $odd = ["one" => "a\\cb", "two" => "c\\nd", "three" => "e\\\\f"];
    put(name_of("headers"), "x", $odd);
    return array_intersect_assoc($odd, take(subscribed(name_of("headers"), "auto"))->headers) === $odd;
});

step("bodies of 1,048,576 octets come whole", function () {
    $name = name_of("large");
    $bodies = array_map(fn($letter) => str_repeat($letter, 1048576), range("a", "j"));
    return bodies_of(passed($name, subscribed($name, "auto"), $bodies)) === $bodies;
});

step("a header with a colon, which it sends as it is, gets ERROR 20", function () {
    $one = client();
    $one->send(name_of("colon"), "x", ["odd" => "a:b"]);
    return refused($one) === "20 BadFrame";
});

step("its ack without an id, as of 1.1, gets ERROR 24", function () {
    $name = name_of("bare");
    $one = subscribed($name, "client");
    [$frame] = passed($name, $one, ["x"]);
    $one->ack($frame);
    return refused($one) === "24 MissingHeader";
});

step("its subscribe without an id, as of 1.0, gets ERROR 24", function () {
    $one = client();
    $one->subscribe(name_of("bare"));
    return refused($one) === "24 MissingHeader";
});

step("its connect without a version gets ERROR 24", function () {
    global $argv;
    try {
        new Stomp("tcp://127.0.0.1:" . $argv[1], "u", "p");
    } catch (StompException $error) {
        return $error->getMessage() === "24 MissingHeader";
    }
    return false;
});

step("an ACK of no unanswered message gets ERROR 31", function () {
    $one = client();
    $one->ack("1000000000", ["id" => "1000000000"]);
    return refused($one) === "31 NoSuchAck";
});

step("of frames that come together it loses some: of 5 messages it gives the last, as ESSAGE", function () {
    $name = name_of("together");
    foreach (range(0, 4) as $number) {
        put($name, "m$number");
    }
    $one = subscribed($name, "client-individual");
    $one->setReadTimeout(1);
    $frames = array_values(array_filter(array_map(fn($number) => $one->readFrame(), range(0, 4))));
    return count($frames) === 1 && $frames[0]->command === "ESSAGE" && $frames[0]->body === "m4";
});

step("leaves by a DISCONNECT: it has no call that asks for a receipt of it", function () {
    $name = name_of("leaves");
    $one = subscribed($name, "client-individual");
    passed($name, $one, ["m"]);
    unset($one);
    return take(subscribed($name, "auto"))->body === "m";
});

$failed = 0;
foreach ($steps as $what => $do) {
    try {
        [$is_right, $why] = [$do(), ""];
    } catch (Throwable $error) {
        [$is_right, $why] = [false, ": " . get_class($error) . " " . $error->getMessage()];
    }
    $failed += $is_right ? 0 : 1;
    echo $is_right ? "ok  " : "FAIL", " $what$why\n";
}
echo count($steps) - $failed, " of ", count($steps), " steps, stomp ", phpversion("stomp"), " of PHP\n";
exit($failed ? 1 : 0);
