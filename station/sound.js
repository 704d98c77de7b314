// A sound for each verdict: two rising notes, a long low one, a short one; and three equal ones
// for a splice that is due.

const NOTES = {
  accepted: [[880, 0.12], [1320, 0.18]],
  refused: [[196, 0.5], [165, 0.5]],
  waiting: [[520, 0.08]],
  splice: [[660, 0.15], [0, 0.1], [660, 0.15], [0, 0.1], [660, 0.15]],
};
let context = null;
let ends = 0;

/** Plays the notes of a kind, where the browser lets it. */
export function play(kind) {
  try {
    context ??= new AudioContext();
    context.resume();
    let time = context.currentTime;
    for (const [pitch, seconds] of NOTES[kind]) {
      const tone = context.createOscillator();
      const volume = context.createGain();
      tone.type = kind === "refused" ? "square" : "sine";
      tone.frequency.value = pitch;
      volume.gain.value = 0.2;
      tone.connect(volume).connect(context.destination);
      tone.start(time);
      tone.stop(time + seconds);
      tone.addEventListener(
        "ended",
        () => context?.currentTime >= ends && context.suspend(),
      ); // a context that runs uses the processor all the time
      time += seconds;
    }
    ends = time;
  } catch {
    context = null; // a screen without a speaker
  }
}
