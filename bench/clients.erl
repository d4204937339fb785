%% Erlang processes that ask one server, each so many times, and how many microseconds they took in all, once they are there. A request
%% has the client's number, which the server answers by the next one.
%% usage: erl -noshell -run clients main CLIENTS REQUESTS
-module(clients).
-export([main/1]).

main(Words) ->
    [Clients, Requests] = [list_to_integer(Word) || Word <- Words],
    Main = self(),
    Server = spawn_link(fun serves/0),
    Asking = [spawn_link(fun() -> client(Main, Server, Number, Requests) end) || Number <- lists:seq(1, Clients)],
    {Microseconds, ok} = timer:tc(fun() -> all(Asking) end),
    io:format("~w~n", [Microseconds]),
    halt(0).

all(Asking) ->
    [Client ! go || Client <- Asking],
    [receive {is_done, Client} -> ok end || Client <- Asking],
    ok.

client(Main, Server, Number, Requests) ->
    receive go -> ok end,
    asks(Server, Number, Requests),
    Main ! {is_done, self()}.

asks(_, _, 0) ->
    ok;
asks(Server, Number, Left) ->
    Server ! {self(), Number},
    receive {answer, _} -> asks(Server, Number, Left - 1) end.

serves() ->
    receive {Client, Number} -> Client ! {answer, Number + 1}, serves() end.
