// A tool that adds two numbers.
import static toolbus.ToolBus.*;

import java.io.IOException;
import toolbus.ToolBus;

public class Plus {
    public static void main(String[] words) throws IOException {
        var tool = new ToolBus();
        tool.onEval("plus", args -> number(args.get(0).asLong() + args.get(1).asLong()));
        tool.onEval(term -> name("unknown"));
        tool.run();
    }
}
