%% Round trips to programs over Erlang ports, line by line, and how many microseconds they took in all, once the ports are open.
%% Each port has a process of its own, which makes so many trips.
%% usage: erl -noshell -run port main COMMAND PORTS TRIPS
-module(port).
-export([main/1]).

main([Command, Ports, Count]) ->
    Main = self(),
    Trips = list_to_integer(Count),
    Asking = [spawn_link(fun() -> asks(Main, Command, Trips) end) || _ <- lists:seq(1, list_to_integer(Ports))],
    all(is_open, Asking),
    {Microseconds, ok} = timer:tc(fun() -> [One ! go || One <- Asking], all(is_done, Asking) end),
    io:format("~w~n", [Microseconds]),
    halt(0).

all(What, Asking) ->
    [receive {What, One} -> ok end || One <- Asking],
    ok.

asks(Main, Command, Trips) ->
    Port = open_port({spawn, Command}, [{line, 65536}, binary]),
    Main ! {is_open, self()},
    receive go -> ok end,
    trips(Port, Trips),
    Main ! {is_done, self()}.

trips(_, 0) ->
    ok;
trips(Port, Left) ->
    port_command(Port, ["rec-eval(", integer_to_list(Left), ")\n"]),
    receive {Port, {data, {eol, _}}} -> trips(Port, Left - 1) end.
