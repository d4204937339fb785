// Reads texts, a line each in hexadecimal, and says what each reads as: with the argument `terms` in the words of terms.txt, with
// `lines` in those of to-tool.txt. With `refuse NAME`, sends the wrong line of this name in kits/test.
// With `bare`, is a tool without handlers.
import static toolbus.ToolBus.*;

import java.io.BufferedReader;
import java.io.IOException;
import java.io.InputStreamReader;
import java.nio.charset.StandardCharsets;
import java.util.ArrayList;
import java.util.Arrays;
import java.util.HexFormat;
import java.util.function.Function;
import toolbus.ToolBus;

public class Table {
    public static void main(String[] words) throws IOException {
        if (words[0].equals("refuse")) {
            refuse(new ToolBus(), words[1]);
            return;
        }
        if (words[0].equals("bare")) {
            new ToolBus().run();
            return;
        }
        Function<byte[], String> answer = words[0].equals("lines") ? Table::lineAnswer : Table::termAnswer;
        var answers = new StringBuilder();
        new BufferedReader(new InputStreamReader(System.in)).lines()
            .forEach(text -> answers.append(answer.apply(HexFormat.of().parseHex(text))).append('\n'));
        System.out.print(answers);
    }

    private static String hexadecimal(String text) {
        return HexFormat.of().formatHex(text.getBytes(StandardCharsets.UTF_8));
    }

    private static String termAnswer(byte[] text) {
        try {
            return "term\t" + hexadecimal(write(read(text)));
        } catch (TermException wrong) {
            return wrong.kind().toString().toLowerCase() + (wrong.at() < 0 ? "" : " " + wrong.at()) + "\t";
        }
    }

    private static String lineAnswer(byte[] text) {
        try {
            var line = readLine(text);
            return line.word() + "\t" + hexadecimal(line.toString());
        } catch (TermException wrong) {
            return "bad\t";
        }
    }

    private static Term deep() {
        var term = number(1);
        for (int level = 1; level < 65; level++) {
            term = list(term);
        }
        return term;
    }

    private static Term cycle() {
        var members = new ArrayList<Term>();
        members.add(list(members));
        return list(members);
    }

    private static void refuse(ToolBus tool, String wrong) {
        try {
            switch (wrong) {
                case "longest" -> tool.event(string("a".repeat(65_523)));
                case "control" -> tool.event(string("\u0001"));
                case "unicode" -> tool.event(string("a\ud800"));
                case "upper-name" -> tool.event(name("A"));
                case "blank-name" -> tool.event(name("a b"));
                case "empty-name" -> tool.event(name(""));
                case "newline-name" -> tool.event(name("a\n"));
                case "deep" -> tool.value(deep());
                case "cycle" -> tool.value(cycle());
                case "long" -> tool.event(string("a".repeat(65_524)));
                case "large" -> tool.event(string("a".repeat(65_536)));
                case "connect-upper" -> tool.connect("Ed");
                case "connect-term" -> tool.connect("ed(1)");
                case "none" -> tool.event();
                case "no-term" -> tool.event((Term) null);
                case "no-part" -> tool.event(list(Arrays.asList(number(1), null)));
                default -> throw new IllegalArgumentException(wrong);
            }
        } catch (TermException error) {
            System.err.println(error.kind().toString().toLowerCase());
            System.exit(1);
        }
    }
}
