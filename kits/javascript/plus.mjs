// A tool that adds two numbers.
import { Appl, Tool } from './toolbus.mjs';

const tool = new Tool();
tool.onEval('plus', (a, b) => a + b);
tool.onEval(() => new Appl('unknown'));
tool.run();
