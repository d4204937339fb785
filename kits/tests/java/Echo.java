// Says what it was told.
import static toolbus.ToolBus.*;

import java.io.IOException;
import toolbus.ToolBus;

public class Echo {
    public static void main(String[] words) throws IOException {
        var tool = new ToolBus();
        tool.onEval(term -> term);
        tool.onEval("look-up", args -> name("found", args.get(0), args.get(1)));
        tool.onEval("status", args -> {
            new Thread(() -> tool.value(name("ready"))).start();
            return null;
        });
        tool.onDo(term -> tool.event(name("did", term)));
        tool.onDo("say", args -> {
            System.out.println(args.get(0).asString());
            tool.event(name("said"));
        });
        tool.onAckEvent(terms -> tool.event(name("acked", list(terms))));
        tool.onAckEvent("bid", args -> tool.event(name("bid-acked", args.get(0), list(args.subList(1, args.size())))));
        tool.onTerminate(reason -> tool.event(name("ends", reason)));
        tool.run();
    }
}
