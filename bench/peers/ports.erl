%% Four senders and three movers on one named port with a bounded queue, as a plain Erlang program.
%%
%%     erlc ports.erl && erl -noshell -run ports main 100000
%%
%% The port is registered by the process that holds it. A send is answered: accepted, or full, or moved, where it is sent again. The
%% holder takes at most one message, registers the next holder and hands it the queue.
-module(ports).
-export([main/1]).

main([Sends]) ->
    Number = list_to_integer(Sends),
    Main = self(),
    Movers = [spawn_link(fun() -> mover(Main) end) || _ <- lists:seq(1, 3)],
    lists:foreach(fun({Mover, Next}) -> Mover ! {next, Next} end, lists:zip(Movers, tl(Movers) ++ [hd(Movers)])),
    Began = erlang:monotonic_time(microsecond),
    register('1.p.1', hd(Movers)),
    hd(Movers) ! {port, queue:new(), 0, 0, 0},
    Senders = [spawn_link(fun() -> sender(Main, Number, 0, 0) end) || _ <- lists:seq(1, 4)],
    Counts = [receive {sent, Sender, Accepted, Refused} -> {Accepted, Refused} end || Sender <- Senders],
    hd(Movers) ! {last, self()},
    {Taken, Moves} = receive {ended, T, M} -> {T, M} end,
    Seconds = (erlang:monotonic_time(microsecond) - Began) / 1.0e6,
    Accepted = lists:sum([A || {A, _} <- Counts]),
    Refused = lists:sum([R || {_, R} <- Counts]),
    io:format("erlang: ~b sent, ~b accepted, ~b refused, ~b taken, ~b moves, ~.3f s, ~b sends/s, ~b taken/s~n",
        [4 * Number, Accepted, Refused, Taken, Moves, Seconds, round(4 * Number / Seconds), round(Taken / Seconds)]),
    halt().

sender(Main, 0, Accepted, Refused) -> Main ! {sent, self(), Accepted, Refused};
sender(Main, Left, Accepted, Refused) ->
    case whereis('1.p.1') of
        undefined -> sender(Main, Left, Accepted, Refused);
        Holder ->
            Ask = make_ref(),
            Holder ! {send, self(), Ask, <<"x">>},
            receive
                {Ask, accepted} -> sender(Main, Left - 1, Accepted + 1, Refused);
                {Ask, full} -> sender(Main, Left - 1, Accepted, Refused + 1);
                {Ask, moved} -> sender(Main, Left, Accepted, Refused)
            end
    end.

mover(Main) -> receive {next, Next} -> away(Main, Next, false) end.

%% The port is elsewhere: who sends here is told so.
away(Main, Next, Last) ->
    receive
        {port, Queue, Length, Taken, Moves} -> held(Main, Next, Last, Queue, Length, Taken, Moves);
        {send, Sender, Ask, _} -> Sender ! {Ask, moved}, away(Main, Next, Last);
        {last, _} -> away(Main, Next, true)
    end.

held(Main, Next, Last, Queue, Length, Taken, Moves) ->
    receive
        {send, Sender, Ask, Body} when Length < 64 ->
            Sender ! {Ask, accepted},
            held(Main, Next, Last, queue:in(Body, Queue), Length + 1, Taken, Moves);
        {send, Sender, Ask, _} -> Sender ! {Ask, full}, held(Main, Next, Last, Queue, Length, Taken, Moves);
        {last, _} -> held(Main, Next, true, Queue, Length, Taken, Moves)
    after 0 ->
        case queue:out(Queue) of
            {{value, _}, Rest} -> hand_over(Main, Next, Last, Rest, Length - 1, Taken + 1, Moves);
            {empty, _} when Last -> Main ! {ended, Taken, Moves};
            {empty, _} -> hand_over(Main, Next, Last, Queue, 0, Taken, Moves)
        end
    end.

hand_over(Main, Next, Last, Queue, Length, Taken, Moves) ->
    unregister('1.p.1'),
    register('1.p.1', Next),
    Next ! {port, Queue, Length, Taken, Moves + 1},
    away(Main, Next, Last).
