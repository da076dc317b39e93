# The gem stomp with a broker, step by step: each line names a step and its outcome.
# usage: runs/others/ruby_stomp.rb PORT     the status is 0 if each step was as it should be
require "stomp"
require "timeout"

PORT = ARGV[0].to_i
STEPS = []

def step(what, &block)
  STEPS << [what, block]
end

def name_of(what)
  "/queue/ruby.#{what}.#{$$}"
end

VERSION_12 = {"accept-version" => "1.2", "host" => "h"}

# It asks for no version by itself.
def client(headers = VERSION_12, **more)
  Stomp::Connection.new(hosts: [{host: "127.0.0.1", port: PORT}], connect_headers: headers, reliable: false, **more)
end

def take(connection, command)
  frame = Timeout.timeout(10) { connection.receive }
  raise "#{command} was to come, and came #{frame.inspect}" unless frame && frame.command == command
  frame
end

def quiet?(connection)
  sleep 0.2
  connection.poll.nil?
end

def subscribe(connection, name, mode)
  connection.subscribe(name, {"id" => "0", "ack" => mode, "receipt" => "s"})
  take(connection, "RECEIPT")
end

def put(connection, name, *bodies, **headers)
  bodies.each do |body|
    connection.publish(name, body, {"receipt" => "p"}.merge(headers))
    take(connection, "RECEIPT")
  end
end

def filled(what, *bodies)
  put(client, name_of(what), *bodies)
  name_of(what)
end

def bodies_of(connection, count)
  Array.new(count) { take(connection, "MESSAGE").body }
end

def ask(connection, how, what, **headers)
  connection.public_send(how, what, {"receipt" => "a"}.merge(headers))
  take(connection, "RECEIPT")
end

# It leaves without a DISCONNECT.
def go_away(connection)
  connection.send(:close_socket)
end

# The message of the ERROR that a client gets, after which the connection ends.
def refused(connection)
  message = take(connection, "ERROR").headers["message"]
  raise "the connection stays open" if Timeout.timeout(10) { connection.receive }
  message
end

step("connects by CONNECT, and by STOMP") { [client, client(stompconn: true)].all? { |it| it.protocol == "1.2" } }

step("sends with a receipt") do
  one = client
  one.publish(name_of("receipt"), "x", {"receipt" => "mine"})
  take(one, "RECEIPT").headers["receipt-id"] == "mine"
end

step("mode auto: messages come in order, and are gone") do
  bodies = Array.new(20) { |number| "m#{number}" }
  name, one, other = filled("auto", *bodies), client, client
  one.subscribe(name, {"id" => "0", "ack" => "auto"})
  came = bodies_of(one, 20)
  one.disconnect
  subscribe(other, name, "auto")
  came == bodies && quiet?(other)
end

MODES = [["client", "counts for all before it", %w[m3 m4]], ["client-individual", "counts for its message alone", %w[m0 m1 m3 m4]]]

MODES.each do |mode, counts, left|
  step("mode #{mode}: an ACK #{counts}, the others are redelivered") do
    name, one, other = filled(mode, *%w[m0 m1 m2 m3 m4]), client, client
    subscribe(one, name, mode)
    frames = Array.new(5) { take(one, "MESSAGE") }
    ask(one, :ack, frames[2].headers["ack"])
    go_away(one)
    subscribe(other, name, mode)
    bodies_of(other, left.size) == left && quiet?(other)
  end
end

step("a NACK brings its message again") do
  one = client
  subscribe(one, filled("nack", "m"), "client-individual")
  first = take(one, "MESSAGE")
  one.nack(first.headers["ack"])
  second = take(one, "MESSAGE")
  one.ack(second.headers["ack"])
  second.headers["message-id"] == first.headers["message-id"] && second.headers["ack"] != first.headers["ack"] && quiet?(one)
end

step("a transaction that is committed sends and acknowledges") do
  name, answers = filled("commit", "taken"), name_of("commit.answers")
  one, other, again = client, client, client
  subscribe(one, name, "client-individual")
  subscribe(other, answers, "auto")
  one.begin("t")
  one.ack(take(one, "MESSAGE").headers["ack"], {"transaction" => "t"})
  put(one, answers, "a", "b", "transaction" => "t")
  early = quiet?(other)
  ask(one, :commit, "t")
  go_away(one)
  subscribe(again, name, "auto")
  early && bodies_of(other, 2) == %w[a b] && quiet?(again)
end

step("a transaction that is aborted does neither") do
  name, one, other = filled("abort", "kept"), client, client
  subscribe(one, name, "client-individual")
  one.begin("t")
  one.ack(take(one, "MESSAGE").headers["ack"], {"transaction" => "t"})
  put(one, name, "never", "transaction" => "t")
  ask(one, :abort, "t")
  go_away(one)
  subscribe(other, name, "auto")
  bodies_of(other, 1) == ["kept"] && quiet?(other)
end

step("a body of all octets, NUL among them, comes as it was sent") do
  body, one = (0..255).to_a.pack("C*") * 4, client
  subscribe(one, filled("binary", body), "auto")
  take(one, "MESSAGE").body.b == body
end

step("headers with colons, newlines and backslashes come as they were sent") do
  odd, one = {"a:b" => "c:d", "e\nf" => "g\nh", "i\\j" => "k\\l", "m" => "n\ro"}, client
  put(one, name_of("headers"), "x", **odd)
  subscribe(one, name_of("headers"), "auto")
  came = take(one, "MESSAGE").headers
  odd.all? { |name, value| came[name] == value }
end

step("a header that is given twice comes with its first value first") do
  one = client
  put(one, name_of("twice"), "x", "foo" => %w[World Hello])
  subscribe(one, name_of("twice"), "auto")
  [*take(one, "MESSAGE").headers["foo"]].first == "World"
end

step("bodies of 1,048,576 octets come whole") do
  bodies, one = Array.new(10) { |number| (97 + number).chr * 1_048_576 }, client
  one.subscribe(filled("large", *bodies), {"id" => "0", "ack" => "auto"})
  bodies_of(one, 10) == bodies
end

step("lines that end in CR LF are taken") do
  one = client(usecrlf: true)
  put(one, name_of("lines"), "x")
  subscribe(one, name_of("lines"), "auto")
  bodies_of(one, 1) == ["x"]
end

step("an ACK of no unanswered message gets ERROR 31") do
  one = client
  one.ack("1000000000")
  refused(one) == "31 NoSuchAck"
end

# What a connection that isn't taken gives: its ERROR is its first frame.
def refusal(headers)
  client(headers).connection_frame.headers["message"]
end

step("its connect without a version gets ERROR 24, one of 1.1 ERROR 23") do
  [refusal({}), refusal({"accept-version" => "1.0,1.1", "host" => "h"})] == ["24 MissingHeader", "23 Version"]
end

step("its unreceive, which answers by message-id, gets ERROR 31") do
  one = client
  subscribe(one, filled("unreceive", "x"), "client")
  frame = take(one, "MESSAGE")
  while frame.headers["ack"] == frame.headers["message-id"]
    one.nack(frame.headers["ack"])
    frame = take(one, "MESSAGE")
  end
  one.unreceive(frame, force_client_ack: true)
  refused(one) == "31 NoSuchAck"
end

step("heart-beats that it asks for are declined, and the session goes on") do
  one = client(VERSION_12.merge("heart-beat" => "500,500"))
  sleep 2
  put(one, name_of("beats"), "x")
  one.open?
end

step("disconnects with a receipt") do
  one = client
  one.disconnect({"receipt" => "last"})
  one.disconnect_receipt.command == "RECEIPT" && one.disconnect_receipt.headers["receipt-id"] == "last"
end

$stdout.sync = true
failed = STEPS.count do |what, block|
  why = nil
  begin
    is_right = block.call
  rescue StandardError => error
    why = ": #{error.inspect}"
  end
  puts "#{is_right ? 'ok  ' : 'FAIL'} #{what}#{why}"
  !is_right
end
puts "#{STEPS.size - failed} of #{STEPS.size} steps, stomp #{Stomp::Version::STRING} of Ruby"
exit(failed.zero?)
