// Says what it was told.
import { Appl, Tool } from '../javascript/toolbus.mjs';

const tool = new Tool();
tool.onEval((term) => term);
tool.onEval('look-up', (word, place) => new Appl('found', word, place));
tool.onEval('status', async () => new Appl('ready'));
tool.onDo((term) => tool.event(new Appl('did', term)));
tool.onDo('say', (text) => {
  console.log(text);
  tool.event(new Appl('said'));
});
tool.onAckEvent((...terms) => tool.event(new Appl('acked', terms)));
tool.onAckEvent('bid', (price, ...others) => tool.event(new Appl('bid-acked', price, others)));
tool.onTerminate((reason) => tool.event(new Appl('ends', reason)));
tool.run();
