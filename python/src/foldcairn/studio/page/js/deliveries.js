// The lines `deliver FRAME RANK SLOT NODE SOURCE BOOT STREAM NUMBER PAYLOAD` with which the output of `outcome` begins: there are some hundred
// thousand, so bytes are looked at, and four at a time where a line has the packet of the one before. Tested, not proved.

const NEWLINE = 10, BLANK = 32, WORD = 4, KIND = "deliver ".length;
// What leads to the node has at most 12 bytes, and what says the packet at most 16: three and four words, which may overlap.
const PACKET_BYTES = 16;

export class Deliveries {
  /** @param {Uint8Array} output */
  constructor(output) {
    this.output = output;
    this.view = new DataView(output.buffer, output.byteOffset, output.length);
    this.at = 0;
    // Of the line before: what leads to the node, and what follows it.
    this.head = 0;
    this.headLength = 0;
    this.rest = 0;
    this.restLength = 0;
  }

  /** Whether there is one more line. */
  get isMore() {
    return this.output[this.at] === 100 && this.output[this.at + 1] === 101;
  }

  /** The number up to the next blank. */
  number() {
    const { output } = this;
    let number = 0, at = this.at;
    for (let letter = output[at]; letter !== BLANK; letter = output[++at]) number = number * 10 + letter - 48;
    this.at = at + 1;
    return number;
  }

  /** The node of a line that has the packet of the line before, which is then read; else -1, and nothing is. */
  again() {
    const start = this.at, head = start + KIND;
    if (!this.headLength || !this.isHead(head)) return -1;
    this.at = head + this.headLength;
    const node = this.number();
    if (this.isRest(this.at)) {
      this.at += this.restLength;
      return node;
    }
    this.at = start;
    return -1;
  }

  /** Reads a line: its frame, rank, slot, node, source, boot, stream and number.
   * @param {Float64Array} numbers that are filled */
  line(numbers) {
    this.head = this.at += KIND;
    for (let place = 0; place < 4; place++) {
      if (place === 3) this.headLength = this.at - this.head;
      numbers[place] = this.number();
    }
    this.rest = this.at;
    for (let place = 4; place < 8; place++) numbers[place] = this.number();
    this.at = this.output.indexOf(NEWLINE, this.at) + 1;
    this.restLength = this.at - this.rest;
  }

  /** @param {number} at */
  isHead(at) {
    const { head, headLength, view } = this, last = headLength - WORD, middle = last >> 1;
    return view.getUint32(at) === view.getUint32(head) && view.getUint32(at + middle) === view.getUint32(head + middle)
      && view.getUint32(at + last) === view.getUint32(head + last);
  }

  /** @param {number} at */
  isRest(at) {
    const { rest, restLength, view, output } = this;
    if (restLength < PACKET_BYTES) {
      for (let place = 0; place < restLength; place++) if (output[at + place] !== output[rest + place]) return false;
      return true;
    }
    for (let place = 0; place < PACKET_BYTES; place += WORD) if (view.getUint32(at + place) !== view.getUint32(rest + place)) return false;
    return output[at + restLength - 1] === NEWLINE;
  }
}
