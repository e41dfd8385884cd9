// In the frame of the live page: the picture has no address of its own, and tells the page around it what is chosen in it.
// It does not tell what the page chose: that would come back late, when the page is elsewhere already. Each says of
// which run it speaks, since the page may have another run while this picture is still there.
link = () => {};
const runOfPicture = NUMBER_OF_RUN, chooseEventHere = chooseEvent, chooseMessageHere = chooseMessage;
const tellPage = () => parent.postMessage({ run: runOfPicture, event: chosen.event, message: chosen.message }, "*");
chooseEvent = (event) => {
  chooseEventHere(event);
  tellPage();
};
chooseMessage = (number) => {
  chooseMessageHere(number);
  tellPage();
};
addEventListener("message", ({ source, data }) => {
  if (source === parent && data.run === runOfPicture && Number.isInteger(data.choose)) {
    chooseEventHere(data.choose);
  }
});
addEventListener("click", (happening) => {
  const place = happening.target.closest("a[href^='#event-']");
  if (place) {
    happening.preventDefault();
    chooseEvent(Number(place.hash.slice("#event-".length)));
  }
}, true);
// The events take what the frame has left below the findings and the marks.
const LEAST_TALL = 240, BELOW = 14;
function fit() {
  view.style.height = `${Math.max(LEAST_TALL, innerHeight - view.offsetTop - BELOW)}px`;
  redraw();
}
byId("marks").addEventListener("toggle", fit);
addEventListener("resize", fit);
fit();
