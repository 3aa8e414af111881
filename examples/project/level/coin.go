components {
  id: "coin"
  component: "/level/coin.script"
}
components {
  id: "sound"
  component: "/level/ding.wav"
}
