/** पन्नों के सारे वाक्य हिन्दी में। Every sentence of the pages in Hindi, under the names of words.js. Codes, letters and the office's own texts stay as they are. */

// 2,50,000 और 250,000 नहीं, जैसा उम्मीदवार लिखते हैं
const figure = (number) => number.toLocaleString("en-IN");
const count = (number, one, many = one) => `${figure(number)} ${number === 1 ? one : many}`;
const NTH = ["", "पहली", "दूसरी", "तीसरी", "चौथी", "5वीं", "छठी"];
const nth = (number) => NTH[number] ?? `${figure(number)}वीं`;
const listed = (words, last = "और") => (words.length < 2 ? words.join("") : `${words.slice(0, -1).join(", ")} ${last} ${words.at(-1)}`);

/** The fixed texts of the pages. */
export const LABELS = {
  site: "सीट आवंटन कार्यालय",
  skip: "सीधे मुख्य भाग पर जाएँ",
  pages: "पन्ने",
  navAnybody: "लिस्टें और जाँच",
  navCandidate: "उम्मीदवार",
  navClerk: "क्लर्क",
  navHelp: "मदद",
  noScript: "इन पन्नों के लिए JavaScript चाहिए, और इस ब्राउज़र में वह बंद है। जो कुछ प्रकाशित है, वह इसके बिना भी पढ़ा जा सकता है:",
  noScriptTexts: "प्रकाशित राउंड, लिस्टें और कट-ऑफ़ सादी फ़ाइलों में",
  starting: "पन्ना खुल रहा है। अगर इसके बाद कुछ न दिखे तो इसे फिर से खोलें, या नया ब्राउज़र लें: Chrome 92, Firefox 98, Safari 15.4 या इनके बाद का।",
  tooOld: "यह ब्राउज़र इन पन्नों के लिए बहुत पुराना है। नया ब्राउज़र लें: Chrome 92, Firefox 98, Safari 15.4 या इनके बाद का।",
  footer: "कार्यालय का सॉफ़्टवेयर गणितीय रूप से सिद्ध है। ये पन्ने, वेब सर्वर और आपका ब्राउज़र सिद्ध नहीं हैं। इसलिए हर पन्ना समझाने के साथ कार्यालय के अपने शब्द भी दिखाता है, और मान्य वही शब्द हैं।",
  access: "ये पन्ने केवल कीबोर्ड से, स्क्रीन रीडर से, 400 % पर और गहरे रंगों में भी चलते हैं। आपके लिए कुछ न चले तो बोर्ड को बताएँ।",
  refresh: "फिर से देखें",
  round: "राउंड",
  programme: "प्रोग्राम",
  programmeHint: "उसका कोड, जैसा चॉइस लिस्ट में है",
  step: "सीट का प्रकार",
  candidate: "उम्मीदवार नंबर",

  anybodyHead: "लिस्टें और जाँच - सीट आवंटन कार्यालय",
  anybodyTitle: "लिस्टें और जाँच",
  anybodyIntro: "यहाँ कोई भी देख सकता है कि कौन-सी सीट किसे मिली और कट-ऑफ़ क्या रहे। इसके लिए टोकन की ज़रूरत नहीं है।",
  mineTitle: "क्या आपको सीट नहीं मिली?",
  mineIntro: "अपने नंबर और टोकन से साइन इन करें। तब पन्ना आपकी लिस्ट के हर प्रोग्राम के लिए बताता है कि उसकी सीटें किस रैंक तक गईं, आपकी रैंक उससे कितनी पीछे है, और सीट न मिलना सही है या नहीं।",
  mineCheck: "सीट न मिलने की जाँच करें",
  haveLetter: "क्या आपके पास बोर्ड का पत्र है?",
  seeSeat: "अपनी सीट देखें",
  stateTitle: "काउंसलिंग कहाँ तक पहुँची",
  likeTitle: "कौन-से प्रोग्राम मेरी पहुँच में हैं?",
  likeIntro: "रजिस्टर में आपके बारे में जो लिखा है, वह भरें। पन्ना उसे एक राउंड के प्रकाशित कट-ऑफ़ से इसी डिवाइस पर मिलाता है और किसी को नहीं भेजता।",
  category: "वर्ग",
  holds: "आपकी विशेष श्रेणियाँ",
  places: "मेरिट लिस्टों में आपकी रैंक",
  placesHint: "जिस लिस्ट में आपकी रैंक नहीं है, उसे खाली छोड़ें। छूट वाली रैंक के बाद R लिखें, जैसे 40R।",
  list1: "लिस्ट 1",
  list2: "लिस्ट 2",
  list3: "लिस्ट 3",
  list4: "लिस्ट 4",
  showLike: "प्रोग्राम दिखाएँ",
  cutoffsTitle: "सभी प्रोग्रामों के कट-ऑफ़",
  cutoffsIntro: "कट-ऑफ़ वह आख़िरी रैंक है जिस पर इस राउंड में उस प्रकार की सीट अब भी मिल जाती। यह वह रैंक है जो एक और उम्मीदवार को चाहिए होती। इसलिए यह क्लोज़िंग रैंक से अलग हो सकता है, और कोई सीट बची हो तो यहाँ “किसी भी रैंक पर” लिखा होता है।",
  search: "खोजें",
  searchHint: "नाम के शब्द, जैसे शहर का नाम, या कोड; सब देखने हों तो खाली छोड़ें",
  showCutoffs: "कट-ऑफ़ दिखाएँ",
  listTitle: "किसी प्रोग्राम की सीटें किसे मिलीं",
  listHint: "उसका नाम, जैसा आपकी चॉइस लिस्ट में है, या उसका कोड",
  ownList: "या अपनी चॉइस लिस्ट में से चुनें",
  showList: "सीटें दिखाएँ",
  roundTitle: "राउंड का पूरा परिणाम",
  roundIntro: "एक राउंड में सभी उम्मीदवारों की सीटें, या अंतिम प्रवेश, जैसे कार्यालय ने प्रकाशित किए।",
  findNumber: "उम्मीदवार खोजें",
  findHint: "एक ही पंक्ति चाहिए तो उम्मीदवार नंबर",
  showRound: "परिणाम दिखाएँ",
  checkTitle: "क्लर्क और अदालत के लिए",
  checkOpen: "स्टेप की शीट से जाँच करें",
  checkIntro: "उम्मीदवार को शीट की ज़रूरत नहीं: ऊपर “सीट न मिलने की जाँच करें” काफ़ी है। यह जाँच क्लर्क और अदालत के लिए है, क्योंकि शीट में सभी उम्मीदवारों के नंबर और उनकी विशेष श्रेणियाँ होती हैं। सीट न मिलना तभी सही है जब दोनों सवालों का जवाब नहीं हो:",
  question1: "क्या विशेष श्रेणी की सीटें भरने के लिए इस उम्मीदवार की ज़रूरत है?",
  question2: "अगर नहीं, तो क्या इस उम्मीदवार के लिए कोई सीट बचती है?",
  checkSheet: "जवाब के लिए पन्ने को स्टेप की शीट चाहिए: उसकी सीटें, उसकी विशेष श्रेणी की सीटें, और मेरिट क्रम में उसके सभी उम्मीदवार। पन्ना सारा काम इसी डिवाइस पर करता है और शीट किसी को नहीं भेजता।",
  sheet: "स्टेप की शीट",
  sheetHint: "पहली पंक्ति “step sheet 1” है।",
  answerQuestions: "दोनों सवालों के जवाब दें",
  example: "एक उदाहरण भरें",

  candidateHead: "आपकी सीट और आपके जवाब - सीट आवंटन कार्यालय",
  candidateTitle: "आपकी सीट और आपके जवाब",
  signInTitle: "साइन इन करें",
  number: "आपका उम्मीदवार नंबर",
  numberHint: "बोर्ड के पत्र वाला नंबर, आवेदन नंबर नहीं",
  token: "आपका टोकन",
  tokenForm: "अक्षर और अंक, चाहें तो चार-चार के समूहों में; बड़े और छोटे अक्षर अलग हैं",
  tokenHint: "आप इस टैब में कार्यालय के सभी पन्नों पर साइन इन रहते हैं, जब तक आप साइन आउट न करें, टैब बंद न करें, या 15 मिनट तक किसी ने उसे न छुआ हो। टोकन केवल मेमोरी में रहता है, और उसका कुछ भी इस डिवाइस पर सेव नहीं होता।",
  clerkTokenHint: "टोकन केवल इस पन्ने की मेमोरी में रहता है, और उसका कुछ भी इस डिवाइस पर सेव नहीं होता। पन्ना छोड़ते ही या साइन आउट करते ही वह मिट जाता है।",
  showToken: "टोकन दिखाएँ",
  signIn: "मेरी सीट दिखाएँ",
  signOut: "साइन आउट",
  letter: "अपना सीट आवंटन पत्र खोलें",
  letterView: "आपका सीट आवंटन पत्र",
  letterPrint: "छापें",
  letterClose: "अपनी सीट पर वापस जाएँ",
  letterHint: "यहाँ प्रिंटर की ज़रूरत नहीं: पत्र सेव करें, और फ़ाइल वहाँ छापें जहाँ प्रिंटर हो।",
  application: "आपका आवेदन नंबर",
  applicationHint: "पत्र और रसीदों के लिए, क्योंकि आपने उम्मीदवार नंबर से साइन इन किया है",
  addApplication: "जोड़ें",
  entryTitle: "रजिस्टर में आपका विवरण",
  seatTitle: "आपकी सीट",
  receiptsTitle: "आपकी रसीदें",
  whyTitle: "दूसरा प्रोग्राम क्यों नहीं मिला?",
  explain: "हर प्रोग्राम का कारण बताएँ",

  helpHead: "मदद - सीट आवंटन कार्यालय",

  clerkHead: "क्लर्क की डेस्क - सीट आवंटन कार्यालय",
  clerkTitle: "क्लर्क की डेस्क",
  clerkToken: "क्लर्क का टोकन",
  clerkSignIn: "साइन इन करें",
  clerkNoEnd: "इस विंडो का कोई समय घोषित नहीं है, इसलिए उम्मीदवार नहीं जानते कि वह कब बंद होगी। सर्वर की कमांड announce पन्नों को यह बताती है।",
  cutTitle: "विंडो बंद करें",
  raiseTitle: "सीटें बढ़ाएँ",
  raiseIntro: "बढ़ी हुई सीटें अगले राउंड से गिनी जाती हैं। विशेष श्रेणी की सीटें उतनी ही रहती हैं। सीटें बढ़ाई जा सकती हैं, घटाई कभी नहीं।",
  seats: "सीटों की नई संख्या",
  seatsHint: "कुल सीटें, बढ़ाई जाने वाली नहीं",
  raise: "सीटें बढ़ाएँ",
  deskSeatTitle: "किसी उम्मीदवार की सीट",
  showSeat: "सीट दिखाएँ",
  deskReceiptsTitle: "आपके भेजे हुए आदेशों की रसीदें",
};

/** What is wrong with a field. */
export const FAULTS = {
  candidate: "उम्मीदवार नंबर में 1 से 9 अंक होते हैं और वह 0 से शुरू नहीं होता। वह बोर्ड के पत्र में है।",
  application: "यह आवेदन नंबर लगता है। उम्मीदवार नंबर से साइन इन करें, वह भी बोर्ड के पत्र में है।",
  lookup: "यह आवेदन नंबर लगता है, और लिस्टों में बोर्ड के छोटे उम्मीदवार नंबर होते हैं। अपनी सीट देखने के लिए उम्मीदवार के रूप में साइन इन करें।",
  either: "अपना आवेदन नंबर लिखें, या बोर्ड के पत्र में दिया उम्मीदवार नंबर।",
  pair: "इस आवेदन नंबर और इस टोकन वाला कोई उम्मीदवार नहीं है। दोनों का एक-एक अक्षर मिलाएँ: 0 और o, 1 और l, बड़े और छोटे अक्षर।",
  ownApplication: "यह आपका आवेदन नंबर नहीं है। उसे बोर्ड के पत्र से मिलाएँ।",
  token: "टोकन में 8 से 32 अक्षर और अंक होते हैं।",
  signs: "टोकन में केवल अक्षर और अंक होते हैं। वह चिह्न देखें जो इनमें से नहीं है।",
  slip: "कार्यालय इस नंबर के साथ यह टोकन नहीं जानता। दोनों को एक-एक चिह्न मिलाएँ: 0 और o, 1 और l, बड़े और छोटे अक्षर।",
  nobody: "इस नंबर का कोई उम्मीदवार कार्यालय के पास नहीं है। उसे बोर्ड के पत्र से मिलाएँ।",
  code: "प्रोग्राम के कोड में 1 से 16 अक्षर, अंक और हाइफ़न होते हैं।",
  programme: "ऐसा कोई प्रोग्राम नहीं मिला। उसके नाम के शब्द लिखें, जैसे वे आपकी चॉइस लिस्ट में हैं, या उसका कोड।",
  seats: "नई संख्या 1 से 4,000 के बीच की पूरी संख्या होती है।",
  round: "अभी कोई राउंड प्रकाशित नहीं हुआ है।",
  place: "रैंक एक संख्या है, और छूट वाली हो तो उसके बाद R।",
  noRank: "इस लिस्ट में ऐसी रैंक नहीं है। देखें कि आपकी रैंक किस लिस्ट की है।",
};

export const NO = "नहीं, वापस जाएँ";
export const SHOW_TOKEN = LABELS.showToken;
export const HIDE_TOKEN = "टोकन छिपाएँ";
export const TYPED = (signs, groups) => `${count(signs, "चिह्न")} लिखे${groups ? `: ${groups}` : ""}`;
export const SWITCH = {
  title: "यह पन्ना छोड़ें?",
  lines: ["दूसरा पन्ना आपका टोकन नहीं जानता। बाद में आपको फिर से साइन इन करना होगा।"],
  yes: "यह पन्ना छोड़ें",
};
export const IDLE_WORDS = {
  title: "क्या आप अब भी यहाँ हैं?",
  lines: ["13 मिनट से किसी ने यह पन्ना नहीं छुआ है। 2 मिनट बाद यह आपको साइन आउट कर देगा और आपका टोकन भूल जाएगा।"],
  stay: "साइन इन रहें",
};

/** The field for the number, where the board has published what finds a candidate by the application number. */
export const NUMBERS = {
  label: "आपका आवेदन नंबर",
  hint: "या उम्मीदवार नंबर, अगर वह बोर्ड के पत्र में है",
};

/** Who is signed in, on a page that is not the candidate's own. */
export const VISIT = {
  signedIn: (cand) => `आप साइन इन हैं: उम्मीदवार ${cand}।`,
  left: { idle: "15 मिनट से किसी ने पन्ना नहीं छुआ, इसलिए उसने आपको साइन आउट कर दिया।", asked: "आप साइन आउट हो गए हैं। पन्ना आपका टोकन भूल चुका है।" },
  lost: "आप साइन इन थे, पर इस पन्ने पर अब नहीं हैं: या तो आपने साइन आउट किया, या आपके ब्राउज़र ने यह बात इस पन्ने तक नहीं पहुँचाई। अपने टोकन से फिर साइन इन करें। आपने कार्यालय को जो भेजा है, वह सुरक्षित है।",
};

/** Whom to ask, where the board has published it. */
export const HELP = {
  ask: "कुछ ग़लत हो तो बोर्ड से पूछें:",
  lost: "टोकन खो गया, या अपना नंबर नहीं जानते? बोर्ड से पूछें:",
  nobody: "टोकन खो गया, या अपना नंबर नहीं जानते? उसी बोर्ड से पूछें जिसने वे दिए थे।",
  unknown: "उस बोर्ड से पूछें जो यह काउंसलिंग करता है।",
};

// ---- the season

/** A programme or an institute with its name, where it has one that is published. */
export const named = (name, code) => (name ? `${name} (${code})` : code);

/** A programme as people call it: its name and the place where it is. */
export const called = (name, institute) => (institute ? `${name}, ${institute}` : name);

export const TRAITS = {
  W: "महिलाओं",
  D: "दिव्यांगों",
  X: "भूतपूर्व सैनिकों",
  S: "खिलाड़ियों",
  F: "स्वतंत्रता सेनानियों के आश्रितों",
  L: "स्थानीय उम्मीदवारों",
};

/** Those who hold all of some traits, before a postposition: `महिलाओं`, `दिव्यांग महिलाओं`. */
const holders = (traits) => (traits.length === 1 ? TRAITS[traits] : traits === "WD" ? "दिव्यांग महिलाओं" : `${[...traits].map((it) => HOLDS[it]).join(" और ")} दोनों विशेष श्रेणियों वालों`);

/** What a candidate holds, as the person would say it. */
export const HOLDS = {
  W: "महिला",
  D: "दिव्यांग",
  X: "भूतपूर्व सैनिक",
  S: "खिलाड़ी",
  F: "स्वतंत्रता सेनानी के आश्रित",
  L: "स्थानीय क्षेत्र",
};
export const HOLDS_NOTHING = "कोई नहीं";

export const CATEGORIES = {
  GEN: "सामान्य (GEN)",
  EWS: "आर्थिक रूप से कमज़ोर वर्ग (EWS)",
  OBC: "अन्य पिछड़ा वर्ग, नॉन-क्रीमी लेयर (OBC)",
  SC: "अनुसूचित जाति (SC)",
  ST: "अनुसूचित जनजाति (ST)",
};

const STEPS = {
  OPEN: "ओपन सीटें",
  EWS: "EWS सीटें",
  OBC: "OBC सीटें",
  SC: "SC सीटें",
  ST: "ST सीटें",
  D: "आरक्षण से मुक्त की गई सीटें",
};

/** The name of a step at the head of a sentence or a field, for one seat where `seats` is 1. */
export const kindOfSeat = (step, seats = 2) => (STEPS[step] ?? `सीटें (${step})`).replace("सीटें", seats === 1 ? "सीट" : "सीटें");

/** What the letter D means in the office's own words, where they have it in the place of a step. */
export const NOT_DISABILITY = "आरक्षण से मुक्त की गई सीट वह है जो किसी वर्ग में खाली रह गई। कार्यालय के अपने शब्दों में वह D है, और वहाँ D का दिव्यांगता से कोई संबंध नहीं है।";

/** What stands for the mock round, which the office may publish before round 1. */
export const MOCK = "mock";
/** What stands for the special round, which the board may hold after the final admissions. */
export const SPECIAL = "special";
const roundName = (round) => ({ [MOCK]: "मॉक राउंड", [SPECIAL]: "विशेष राउंड" })[round] ?? `राउंड ${round}`;

/** How far the season is, sentence by sentence. */
export function phase({ now, rounds, published }) {
  if (now === 0) return ["अभी कोई राउंड प्रकाशित नहीं हुआ है।", "राउंड 1 से पहले किसी के पास सीट नहीं होती।"];
  if (now > rounds) return [`काउंसलिंग पूरी हो चुकी है। ${rounds === 1 ? "एकमात्र राउंड" : `सभी ${rounds} राउंड`} प्रकाशित हैं और अंतिम प्रवेश तय हो गए हैं।`];
  return [
    `कुल ${rounds} राउंड में से राउंड ${published} प्रकाशित है और विंडो ${now} खुली है।`,
    now === rounds ? "यह आख़िरी विंडो है। इसके बंद होते ही अंतिम प्रवेश तय हो जाएँगे।" : `विंडो बंद होते ही राउंड ${now + 1} प्रकाशित होगा।`,
  ];
}

const WHEN = { day: "numeric", month: "long", year: "numeric", hour: "numeric", minute: "2-digit", hour12: true, timeZone: "Asia/Kolkata" };
// `am` और `pm` के बदले दिन का पहर
const PARTS = [[4, "रात"], [12, "सुबह"], [16, "दोपहर"], [20, "शाम"], [24, "रात"]];

/** A moment by the clock of India: `1 जुलाई 2026, शाम 5:00 बजे`. */
function clock(ms) {
  const part = (options) => new Date(ms).toLocaleString("hi-IN", { ...options, timeZone: WHEN.timeZone });
  const hour = Number(new Date(ms).toLocaleString("en-GB", { hour: "2-digit", hour12: false, timeZone: WHEN.timeZone })) % 24;
  const minute = new Date(ms).toLocaleString("en-GB", { minute: "2-digit", timeZone: WHEN.timeZone }).padStart(2, "0");
  return `${part({ day: "numeric", month: "long", year: "numeric" })}, ${PARTS.find(([until]) => hour < until)[1]} ${hour % 12 || 12}:${minute} बजे`;
}

/** A moment within a sentence: `2 दिसंबर, शाम 5 बजे`. */
export const moment = (ms) => clock(ms).replace(/ \d{4},/, ",").replace(":00 ", " ");

/** How much is left, in its two largest units. */
function left(ms) {
  const minutes = Math.max(1, Math.ceil(ms / 60_000));
  const [days, hours] = [Math.floor(minutes / 1440), Math.floor(minutes / 60) % 24];
  if (days) return `${figure(days)} दिन${hours ? ` और ${hours} घंटे` : ""}`;
  return hours ? `${count(hours, "घंटा", "घंटे")}${minutes % 60 ? ` और ${minutes % 60} मिनट` : ""}` : `${minutes} मिनट`;
}

/** When the open window closes, as the office has announced it, and what is left of it. */
export const CLOSES = (window, end, ms) =>
  ms > 0
    ? `विंडो ${window} बंद होने का घोषित समय: ${clock(end)} (भारतीय समय)। ${left(ms)} बाकी।`
    : `विंडो ${window} का घोषित समय निकल चुका है। वह किसी भी क्षण बंद हो सकती है।`;

/** The same below a heading that names the end. */
export const LEFT = (window, end, ms) => (ms > 0 ? `${left(ms)} बाकी (भारतीय समय)।` : CLOSES(window, end, ms));

export const ASKING = "कार्यालय से पूछा जा रहा है …";
export const WAITING = "कार्यालय से अभी उत्तर नहीं आया। पन्ना अपने आप फिर पूछ रहा है।";
export const ARRIVING = (bytes) => `${figure(Math.ceil(bytes / 100_000) / 10)} MB आ चुका है …`;
export const NOTICE = "कार्यालय की सूचना";
export const OWN_WORDS = "कार्यालय के अपने शब्द";
export const SAVED = (name) => ["सेव हो गई: ", name, "। यह फ़ाइल इस डिवाइस के डाउनलोड में देखें।"];

/** A moment with its year, by the clock of India. */
export const MOMENT = (ms) => `${clock(ms)} (भारतीय समय)`;

/** What the office's own words say. */
export const OWN = {
  head: ({ cand, application, time }) => `कार्यालय ने उम्मीदवार ${cand} के बारे में${application ? ` (आवेदन नंबर ${application})` : ""} यह बताया: ${time}। उसकी अपनी पंक्तियाँ हमेशा अंग्रेज़ी में होती हैं, और अदालत उन्हीं से मिलान करती है।`,
  seat: ({ round, seat, kind, answer, isOpen }) =>
    seat ? `राउंड ${round} के अनुसार आपकी सीट ${seat} में है। सीट का प्रकार: ${kind}।${answer ? ` आपका जवाब: ${answer}।` : isOpen ? " आपने अभी जवाब नहीं दिया है।" : ""}` : round ? `राउंड ${round} में आपके पास सीट नहीं है।` : "अभी कोई राउंड प्रकाशित नहीं हुआ है, इसलिए आपके पास सीट नहीं है।",
  register: (category, traits, places) => `रजिस्टर में आपका विवरण: वर्ग ${category}, विशेष श्रेणियाँ: ${traits}। ${places.length ? `आपकी रैंक: ${places.join("; ")}।` : "किसी मेरिट लिस्ट में आपकी रैंक नहीं है।"}`,
  choices: (programmes) => `आपकी चॉइस लिस्ट: ${programmes.map((it, at) => `${at + 1}. ${it}`).join("; ")}।`,
  noChoices: "आपकी चॉइस लिस्ट खाली है।",
  noted: ({ window, turn, answer }) => `विंडो ${window} में कार्यालय ने आपका जवाब ${answer} दर्ज किया; इस विंडो में जवाब नंबर ${turn}।`,
  why: (programme, round) => `राउंड ${round} में ${programme} के लिए कार्यालय का बताया कारण, अक्षरशः। वह क्या कहता है, यह ऊपर है।`,
  refused: (programme, round) => `राउंड ${round} में ${programme} के लिए कार्यालय का बताया कारण और उसके कट-ऑफ़, अक्षरशः। वे क्या कहते हैं, यह ऊपर है।`,
};

// ---- cutoffs

/** A rank with its list of ranks, where a merit list has several and it is not `said`: `3,004 (Rank SC)`. */
const ranked = ({ rank, of }, said = null) => `${rank === Infinity ? "किसी भी रैंक पर" : figure(rank)}${of && of !== said ? ` (${of})` : ""}`;

/** The ranks of some lines, each with its list of ranks where that is another one than before. */
const ranksOf = (lines) => lines.map((it, at) => ranked(it, lines[at - 1]?.of));

/** Where a kind of seat ends, for everybody and for those who hold traits: `8,017 · महिलाओं को 9,846`. */
const ends = (lines) => ranksOf(lines).map((it, at) => (lines[at].traits ? `${holders(lines[at].traits)} को ${it}` : it)).join(" · ");

/** The same as a sentence about a kind of seat: `ओपन सीटें रैंक 8,017 तक मिलीं (महिलाओं को 9,846 तक)।` */
function endOf(step, lines, isAll = true) {
  const until = ranksOf(lines).map((it, at) => (lines[at].rank === Infinity ? it : `${it} तक`));
  const parts = until.map((it, at) => (lines[at].traits ? `${holders(lines[at].traits)} को ${it}` : it));
  if (lines[0].traits) return `${kindOfSeat(step)} ${isAll ? "केवल " : ""}${parts.join(", ")} मिलीं।`;
  const [first, ...others] = parts;
  return `${kindOfSeat(step)} ${lines[0].rank === Infinity ? first : `रैंक ${first}`} मिलीं${others.length ? ` (${others.join(", ")})` : ""}।`;
}

/** How the lists of ranks follow each other in a merit list. */
export const IN_ORDER = (lists) => `कार्यालय इन लिस्टों को एक के पीछे एक रखता है: ${lists.join(", ")}। इसलिए एक लिस्ट की हर रैंक उसके पीछे वाली लिस्टों की सभी रैंकों से बेहतर है।`;

export const CUTOFFS = {
  columns: ["प्रोग्राम", "संस्थान", "किस रैंक तक"],
  caption: (round, number) => `${roundName(round)} के कट-ऑफ़: ${count(number, "प्रोग्राम")}`,
  ends,
  more: (some, all) => `बाकी ${figure(all)} में से ${some} और दिखाएँ`,
  noneFound: "ऐसा कोई प्रोग्राम नहीं मिला।",
  noPaper: "सभी कट-ऑफ़ की तालिका यहाँ प्रकाशित नहीं है। किसी एक प्रोग्राम का कोड लिखें, तो पन्ना कार्यालय से पूछेगा।",
  nobody: "यह प्रोग्राम अब किसी और को नहीं ले सकता।",
  about: (round) => `ये आँकड़े ${roundName(round)} के हैं और केवल एक और व्यक्ति के बारे में हैं।`,
  notSaid: "ये आँकड़े क्या नहीं बताते",
  caveats: () => [
    "कट-ऑफ़ के भीतर आने वाले दो नए लोगों में से दोनों को सीट मिले, यह ज़रूरी नहीं।",
    "राउंड में शामिल हर उम्मीदवार के लिए ये उन प्रोग्रामों का फ़ैसला करते हैं जिनका वह दावेदार था। एक उम्मीदवार और होता तो दूसरे आगे बढ़ते और लौटते, इसलिए कट-ऑफ़ के भीतर आने वाले नए उम्मीदवार को सीट न मिले, यह हो सकता है।",
    "कट-ऑफ़ का मतलब है यह रैंक या इससे बेहतर। ज़्यादा विशेष श्रेणियाँ होने से कट-ऑफ़ कभी कड़ा नहीं होता।",
    "ओपन (OPEN) और आरक्षण से मुक्त की गई (D) सीटें हर वर्ग के उन सभी उम्मीदवारों के लिए हैं जिनकी रैंक छूट वाली नहीं है। किसी वर्ग की सीटें केवल उसी वर्ग के लिए हैं।",
    "जिसने स्लाइड या फ्रीज़ चुना, वह ऐसे प्रोग्राम के कट-ऑफ़ के भीतर हो सकता है जिसका वह अब दावेदार नहीं था।",
  ],
  save: "तालिका सेव करें",
  saveClosing: "हर विशेष श्रेणी के अलग कॉलम के साथ सेव करें",
};

export const LIKE = {
  columns: ["प्रोग्राम", "संस्थान", "सीट का प्रकार", "कहाँ तक", "आपकी रैंक"],
  caption: (round, number) => `${roundName(round)} में ${count(number, "प्रोग्राम")} ऐसे एक और उम्मीदवार की पहुँच में ${number === 1 ? "है" : "हैं"}`,
  none: (round) => `${roundName(round)} में कोई प्रोग्राम ऐसे एक और उम्मीदवार की पहुँच में नहीं है।`,
  noPlace: "कम से कम एक रैंक भरें।",
  noPaper: "सभी प्रोग्रामों के कट-ऑफ़, या प्रोग्राम ही, यहाँ प्रकाशित नहीं हैं। इसलिए पन्ना मिलान नहीं कर सकता।",
  first: "सीट का प्रकार वह है जो कार्यालय के क्रम में सबसे पहले आता है और जिसके कट-ऑफ़ के भीतर आप हैं। सीट उसी प्रकार की होती।",
  of: (list) => `${list} में आपकी रैंक किस लिस्ट की है?`,
  // a cutoff in a list behind one's own admits every place of one's own, and its number is for others
  ends: (own, best) => (best.rank === Infinity || best.of === own.of ? ends([best]) : `${own.of} की हर रैंक`),
  ahead: (own, best) => `${ranked(own)}${best.rank === Infinity || best.of !== own.of ? "" : best.rank === own.rank ? ", यानी ठीक आख़िरी रैंक" : `, यानी ${figure(best.rank - own.rank)} आगे`}`,
};

// ---- lists and rounds

export const SEATS = {
  summary: (step) => `${count(step.seats, "सीट", "सीटें")}। ${count(step.candidates, "उम्मीदवार", "उम्मीदवारों")} पर विचार हुआ और ${figure(step.rows.length)} को सीट मिली।`,
  protections: (honoured, all) =>
    all === null
      ? honoured === 0
        ? "विशेष श्रेणी की कोई सीट नहीं भरी।"
        : `${count(honoured, "विशेष श्रेणी की सीट भरी है", "विशेष श्रेणी की सीटें भरी हैं")}।`
      : all === 0
        ? "यहाँ विशेष श्रेणी की कोई सीट नहीं है।"
        : `${count(all, "विशेष श्रेणी की सीट", "विशेष श्रेणी की सीटों")} में से ${figure(honoured)} भरी ${honoured === 1 ? "है" : "हैं"}।`,
  unfilled: (trait, left, all) =>
    `${TRAITS[trait]} के लिए आरक्षित ${all === 1 ? "सीट" : `${figure(all)} सीटों में से ${left}`} नहीं ${left === 1 ? "भरी" : "भरीं"}, क्योंकि जिन उम्मीदवारों पर विचार हुआ, वे कुल मिलाकर विशेष श्रेणी की इससे ज़्यादा सीटें नहीं भर सकते। ${left === 1 ? "वह साधारण सीट गिनी जाती है" : "वे साधारण सीटें गिनी जाती हैं"}।`,
  list: (step, seats) => `${kindOfSeat(step, seats)}: ${count(seats, "सीट", "सीटें")}`,
  // a published picture does not show who has a disability
  protectedFor: (trait) => (trait === "D" ? "विशेष श्रेणी की सीट" : `${TRAITS[trait]} के लिए आरक्षित सीट`),
  ordinary: "साधारण सीट",
  candidate: "उम्मीदवार",
  rank: (rank) => `इस लिस्ट में क्रम ${figure(rank)}`,
  place: (it, isBetter) => `रैंक ${it.rank === null ? `${it.behind} की सभी रैंकों के पीछे` : ranked(it)}${isBetter === null ? "" : isBetter ? ": आपसे बेहतर" : ": आपसे पीछे"}`,
  you: "यह आप हैं",
  lettersSay: "खाना बताता है कि उम्मीदवार विशेष श्रेणी की कौन-सी सीट भरता है। वह यह नहीं बताता कि उम्मीदवार को प्रवेश उसी के कारण मिला।",
  empty: "खाली",
  emptyWhy: (step, isMoved) => {
    const all = step.candidates === 0 ? "यहाँ किसी पर विचार नहीं हुआ" : "जिन पर विचार हुआ, उन सबको सीट मिल गई";
    if (isMoved) return `यहाँ जो खाली रहा, वह नीचे आरक्षण से मुक्त की गई सीटों में गया, क्योंकि ${all}।`;
    return ["OPEN", "D"].includes(step.name) ? `सभी सीटें नहीं भरीं, क्योंकि ${all}।` : `सभी सीटें नहीं भरीं, क्योंकि ये केवल इसी वर्ग के लिए हैं और ${all}।`;
  },
  unfilledOthers: "दूसरों के लिए विशेष श्रेणी की सीटें, जो नहीं भरीं",
  moreEmpty: (left) => `${count(left, "और सीट खाली है", "और सीटें खाली हैं")}।`,
  more: (left) => `${count(left, "और सीट", "और सीटें")} दिखाएँ`,
  without: (steps) => `यहाँ ${listed(steps.map((it) => kindOfSeat(it)), "या")} नहीं हैं।`,
  title: (round, programme) => `${programme}, राउंड ${round}`,
  which: (number) => `ऐसे ${count(number, "प्रोग्राम")} हैं। आपका मतलब किससे है?`,
  moreMeant: (some, left) => `बाकी ${figure(left)} में से ${some} और दिखाएँ`,
  institute: (institute) => `${institute} की सभी लिस्टें सेव करें`,
  nothing: "इस प्रोग्राम में सीटें नहीं हैं।",
  wrong: (fault) => `इस लिस्ट में कुछ गड़बड़ है: ${LIST_FAULTS[fault.key](fault)} इसे कार्यालय को दिखाएँ।`,
  unread: "पन्ना यह लिस्ट नहीं पढ़ पाया। ये कार्यालय के अपने शब्द हैं।",
};

/** What can be wrong with a list by itself, or with the refusal of somebody by it. */
export const LIST_FAULTS = {
  empty: () => "एक सीट खाली है, जबकि जिस उम्मीदवार पर विचार हुआ था उसे सीट नहीं मिली।",
  crowded: () => "जितनी सीटें या उम्मीदवार हैं, उससे ज़्यादा को सीट मिली है।",
  letters: (it) => `विशेष श्रेणी की ${it.letters} सीटों के नाम हैं, पर “honoured” वाली पंक्ति ${it.honoured} कहती है।`,
  over: (it) => `${TRAITS[it.trait]} के लिए जितनी सीटें आरक्षित हैं, उससे ज़्यादा भरी दिखाई गई हैं।`,
  unfilled: (it) => `${TRAITS[it.trait]} के लिए आरक्षित एक सीट खाली है, और वह विशेष श्रेणी आपकी भी है।`,
  bymerit: (it) => `उम्मीदवार ${it.id} की रैंक आपसे नीचे है और वह विशेष श्रेणी की कोई सीट नहीं भरता।`,
  sametrait: (it) => `उम्मीदवार ${it.id} की रैंक आपसे नीचे है और वह विशेष श्रेणी की ऐसी सीट भरता है जिसे आप भी भर सकते हैं।`,
};

/** Those for whom some seats are protected, before `के लिए`, or words for a trait that nothing names: `महिलाओं या खिलाड़ियों`. */
const anyOf = (traits) => (traits.length ? listed([...traits].map((it) => TRAITS[it]), "या") : "ऐसी विशेष श्रेणी, जो आपकी नहीं है,");

const admittedAll = (seats) => (seats === 1 ? "जिस उम्मीदवार को सीट मिली उसकी" : "जिन्हें सीट मिली उन सबकी");
const DECIDED = (isWithin) => `फ़ैसला ऊपर दिए कट-ऑफ़ से होता है${isWithin === null ? "" : isWithin ? ", और आपकी रैंक उनमें से एक तक पहुँचती है" : ", और आपकी रैंक उनमें से किसी तक नहीं पहुँचती"}।`;
export const SETTLED = {
  right: "सीट न मिलना सही है, क्योंकि ",
  wrong: "कुछ गड़बड़ है: ",
  open: "",
  by: {
    notrait: (seats, { held }) => `${seats === 1 ? "यह सीट" : "इनमें से कोई सीट"} ${anyOf(held)} के लिए आरक्षित नहीं है, और ${admittedAll(seats)} रैंक बेहतर है।`,
    traitless: (seats) => `आपकी कोई विशेष श्रेणी नहीं है, और ${admittedAll(seats)} रैंक बेहतर है।`,
    allfilled: (seats) => `लिस्ट के अनुसार विशेष श्रेणी की हर सीट भरी है, और ${admittedAll(seats)} रैंक बेहतर है।`,
    needed: (_, { by, isWithin }) =>
      `इस लिस्ट के आख़िरी उम्मीदवार की रैंक आपसे नीचे है, और उसके पास ${SEATS.protectedFor(by.trait)} है। यह तब सही है जब उसकी जगह आपको रखने पर विशेष श्रेणी की कम सीटें भरतीं। ${DECIDED(isWithin)}`,
    others: (seats, { by, isWithin }) => `${admittedAll(seats)} रैंक बेहतर है, और ${anyOf(by.traits)} के लिए आरक्षित सभी सीटें भरी हैं। विशेष श्रेणी की कोई दूसरी सीट नहीं भरी। ${DECIDED(isWithin)}`,
  },
};

export const ROUND = {
  option: (round, rounds) => (round === MOCK ? "मॉक राउंड" : round === SPECIAL ? "विशेष राउंड" : round > rounds ? "अंतिम प्रवेश" : `राउंड ${round}`),
  summary: (round, rounds, rows) => (round > rounds ? `${count(rows, "उम्मीदवार", "उम्मीदवारों")} को प्रवेश मिला है।` : `${roundName(round)} में ${count(rows, "उम्मीदवार", "उम्मीदवारों")} के पास सीट है।`),
  mock: "मॉक राउंड आज की लिस्टों से किया गया अभ्यास है। इससे किसी को सीट नहीं मिलती, और राउंड 1 का परिणाम अलग हो सकता है।",
  cut: (shown, all) => `नीचे ${figure(all)} में से पहली ${figure(shown)} पंक्तियाँ हैं। पूरा पढ़ने के लिए इसे सेव करें।`,
  save: "इसे सेव करें",
  word: "अक्षरशः परिणाम",
  found: (id, programme, step, isFinal) => `उम्मीदवार ${id} को ${programme} में ${isFinal ? "प्रवेश मिला है" : "सीट मिली है"}। सीट का प्रकार: ${kindOfSeat(step, 1)}।`,
  notFound: (id) => `इस परिणाम में उम्मीदवार ${id} के पास सीट नहीं है।`,
  missing: "परिणाम आते-आते बीच में रुक गया। वह लंबा है, इसलिए पन्ना उसे अपने आप दोबारा नहीं लाता। दोबारा लाने के लिए बटन दबाएँ।",
};

// ---- the two questions

const GOING_DOWN = "मेरिट क्रम में ऊपर से नीचे चलें, और हर उस उम्मीदवार को रखें जिसके साथ अब तक रखे गए उम्मीदवार विशेष श्रेणी की एक और सीट भर सकें।";
export const QUESTIONS = {
  columns: ["उम्मीदवार", "विशेष श्रेणी", "अब तक रखे गए", "इस उम्मीदवार के साथ वे भर सकते हैं", "ज़रूरत है, सो रखा गया?"],
  title1: (id) => `1. क्या विशेष श्रेणी की सीटें भरने के लिए उम्मीदवार ${id} की ज़रूरत है?`,
  caption: (shown, all) => (shown < all ? `${GOING_DOWN} ये ${figure(all)} में से आख़िरी ${shown} पंक्तियाँ हैं।` : GOING_DOWN),
  nobody: "कोई नहीं",
  nothing: "कुछ नहीं",
  people: (number) => count(number, "उम्मीदवार"),
  filled: (number, placement) =>
    number === 0 ? "कुछ नहीं" : placement ? placement.map((it) => `${it.trait}: ${it.ids.join(", ")}`).join("; ") : count(number, "विशेष श्रेणी की सीट", "विशेष श्रेणी की सीटें"),
  yes: "हाँ",
  no: "नहीं",
  needed: "हाँ। उम्मीदवार का लिस्ट में होना ज़रूरी है।",
  notNeeded: "नहीं।",
  title2: (id) => `2. क्या उम्मीदवार ${id} के लिए कोई सीट बचती है?`,
  free: (sheet, it) =>
    `स्टेप में ${count(sheet.seats, "सीट है", "सीटें हैं")}, और ${count(it.honoured, "विशेष श्रेणी की सीट भरी है", "विशेष श्रेणी की सीटें भरी हैं")}। इसलिए ${it.free === 0 ? "कोई सीट नहीं बचती" : `${count(it.free, "सीट बचती है", "सीटें बचती हैं")}`}।`,
  ahead: (id, ahead) =>
    `जिन उम्मीदवारों की विशेष श्रेणी की सीटें भरने के लिए ज़रूरत नहीं, उनमें से ${ahead === 0 ? "कोई भी" : figure(ahead)} उम्मीदवार ${id} से बेहतर ${ahead === 0 ? "नहीं है" : ahead === 1 ? "है" : "हैं"}।`,
  left: "हाँ, एक सीट बचती है। उम्मीदवार का लिस्ट में होना ज़रूरी है।",
  admitted: (id) => `उम्मीदवार ${id} का इस स्टेप की लिस्ट में होना ज़रूरी है। अगर लिस्ट में उम्मीदवार ${id} नहीं है, तो लिस्ट या शीट ग़लत है। दोनों को कार्यालय ले जाएँ।`,
  refused: (id) => `उम्मीदवार ${id} को इस स्टेप में सीट नहीं मिलती। अगर लिस्ट में उम्मीदवार ${id} नहीं है, तो यह सही है।`,
  unknown: (id) => `शीट में उम्मीदवार ${id} नहीं है।`,
  unread: (line, kind) => `पन्ना शीट की पंक्ति ${line} नहीं पढ़ पाया: ${SHEET_FAULTS[kind]}`,
};

const SHEET_FAULTS = {
  TooLong: "शीट 16,777,216 चिह्नों से लंबी है।",
  BadFirstLine: "पहली पंक्ति “step sheet 1” होनी चाहिए।",
  BadLine: "पहली पंक्ति के बाद “seats,N” आता है, फिर “protect,LETTER,N” वाली पंक्तियाँ, फिर मेरिट क्रम में “cand,NUMBER,LETTERS” वाली पंक्तियाँ।",
  RepeatedProtect: "ऊपर की एक पंक्ति इसी विशेष श्रेणी के लिए सीटें आरक्षित कर चुकी है।",
  RepeatedCandidate: "यह उम्मीदवार ऊपर की एक पंक्ति में आ चुका है।",
  ProtectionsExceedSeats: "जितनी सीटें हैं, उससे ज़्यादा आरक्षित हैं।",
  TooMany: "एक शीट में ज़्यादा से ज़्यादा 2,50,000 उम्मीदवार होते हैं।",
};

export const EXAMPLE = { sheet: "step sheet 1\nseats,2\nprotect,W,1\nprotect,D,1\ncand,1,-\ncand,2,WD\ncand,3,W\ncand,4,D\n", candidate: "4" };

// ---- a candidate

/** The candidate's own entry in the register. */
export const ENTRY = {
  check: "हर पंक्ति जाँचें।",
  later: "कार्यालय पूरी काउंसलिंग में इसी विवरण से काम करता है।",
  open: "देखें कि रजिस्टर में आपके बारे में क्या लिखा है",
  seen: "दूसरे आपके बारे में क्या देख सकते हैं",
  public: [
    "जहाँ बोर्ड राउंड और लिस्टें प्रकाशित करता है, वहाँ हर कोई आपका उम्मीदवार नंबर, आपकी सीट और उसका प्रकार पढ़ सकता है, और यह भी कि आप विशेष श्रेणी की कौन-सी सीट भरते हैं। कार्यालय की अपनी लिस्टें उसकी विशेष श्रेणी एक अक्षर से बताती हैं, दिव्यांगों की भी। अगर बोर्ड रैंक भी प्रकाशित करे, तो जब तक आपके पास सीट है, आपकी रैंक भी उनमें होती है।",
    "रजिस्टर का विवरण, आपकी चॉइस लिस्ट, आपके जवाब और आपकी रसीदें केवल आपके और क्लर्क के लिए हैं। काउंसलिंग जाँचने वाली अदालत को भी वे मिलते हैं।",
    "कार्यालय नाम, अंक या पते नहीं जानता।",
  ],
  fields: { category: "वर्ग", traits: "आपकी विशेष श्रेणियाँ", place: (list) => `${list} में रैंक` },
  list: (number) => `मेरिट लिस्ट ${number}`,
  // the category GEN has no seats of its own
  place: (own, isCommon, category) =>
    `${ranked(own)}, ${isCommon ? `बिना छूट वाली रैंक: ओपन सीटों के लिए${category === "GEN" ? "" : " और आपके वर्ग की सीटों के लिए"} गिनी जाती है` : "छूट वाली रैंक: केवल आपके वर्ग की सीटों के लिए"}`,
  short: (own, isCommon, list) => `${ranked(own)}${own.of ? "" : ` (${list})`}${isCommon ? "" : ", छूट वाली"}`,
  joined: (place, own) => `कार्यालय के अपने शब्दों में आपकी रैंक ${ranked(own)} की जगह ${place} है: वहाँ लिस्टें एक के पीछे एक हैं।`,
  nowhere: "किसी मेरिट लिस्ट में आपकी रैंक नहीं है।",
};

/** What a candidate without an admission reads of the special round: what it gave, until when lists are taken, or that there may be one. */
const afterEnd = ({ hasSpecial, lists }) => (hasSpecial ? SEAT.noSpecial : lists ? SEAT.lists(lists) : SEAT.special);

/** What a candidate's page says first, by the situation of the candidate. `by` is the announced end of the window, or null. */
export const STATE = {
  title: {
    early: () => "क्या आपका विवरण सही है?",
    earlyEmpty: () => "आपकी लिस्ट में कोई प्रोग्राम नहीं है, इसलिए किसी राउंड में सीट नहीं मिल सकती।",
    waiting: ({ round }) => `राउंड ${round} के बाद आपके पास सीट नहीं है।`,
    waitingEmpty: () => "आपकी लिस्ट में कोई प्रोग्राम नहीं है, इसलिए किसी राउंड में सीट नहीं मिल सकती।",
    offered: ({ seat, by, isLate, isLast, window }) => `आपको ${seat} में सीट मिली है। ${isLate ? "अभी" : by ? `${by} तक` : `विंडो ${window} बंद होने से पहले`} जवाब दें, नहीं तो यह सीट ${isLast ? "चली जाएगी" : "और आगे के सभी राउंड चले जाएँगे"}।`,
    kept: ({ seat }) => `आपके पास ${seat} में सीट है।`,
    admitted: ({ seat }) => `आपको ${seat} में प्रवेश मिला है।`,
    without: () => "सभी राउंड हो चुके हैं, और आपके पास सीट नहीं है।",
    special: ({ seat }) => `विशेष राउंड में आपको ${seat} में सीट मिली है।`,
    withdrawn: () => "आपने नाम वापस ले लिया है, और यह अंतिम है।",
    noshow: () => "आपकी सीट और आगे के सभी राउंड चले गए, क्योंकि आपने पहली सीट का जवाब समय पर नहीं दिया।",
  },
  lead: {
    early: ({ by }) => [`राउंड 1 प्रकाशित होने तक बोर्ड ग़लती सुधार सकता है${by ? `; उसका घोषित समय ${by} है` : ""}। बाद में कार्यालय नहीं सुधार सकता।`, "सब सही हो तो आपको कुछ करने की ज़रूरत नहीं।"],
    earlyEmpty: ({ by }) => [`अभी बोर्ड से पूछें। राउंड 1 प्रकाशित होने तक वह इसे सुधार सकता है, बाद में नहीं${by ? `; उसका घोषित समय ${by} है` : ""}।`],
    waiting: ({ round, isLast, by }) => [
      "आपको कुछ करने की ज़रूरत नहीं।",
      isLast ? `यह आख़िरी राउंड था, और विंडो बंद होते ही काउंसलिंग पूरी हो जाएगी। ${SEAT.special}` : `आप काउंसलिंग में बने हुए हैं, और विंडो बंद होने पर राउंड ${round + 1} आएगा${by ? `; उसका घोषित समय ${by} है` : ""}।`,
    ],
    waitingEmpty: () => [`राउंड 1 के बाद लिस्टें नहीं बदलतीं। ${SEAT.special}`],
    offered: ({ isLast }) => [isLast ? "यह आख़िरी विंडो है: नाम वापस लेने के सिवा हर जवाब से यही सीट आपका अंतिम प्रवेश बनेगी।" : "यह सीट आपको पहली बार मिली है।"],
    kept: ({ choice, isLast, isSame, window, by }) => [
      isLast ? "यह विंडो बंद होते ही यही सीट आपका अंतिम प्रवेश बन जाएगी।" : `आपका जवाब ${choice} है, और जब तक आप न बदलें, यही मान्य रहेगा।`,
      `आपको कुछ करने की ज़रूरत नहीं। ${by ? `${by} तक` : `विंडो ${window} बंद होने तक`} ${isSame ? "आप अब भी नाम वापस ले सकते हैं" : "आप अपना विकल्प बदल सकते हैं"}।`,
    ],
    admitted: () => ["यह प्रवेश अंतिम है।", "अब अपना पत्र खोलें और उसे छापें या सेव करें, और बोर्ड तथा संस्थान की सूचनाएँ देखें: वे बताती हैं कि कब और कहाँ पहुँचना है।"],
    without: (given) => [afterEnd(given)],
    special: () => ["बोर्ड तथा संस्थान की सूचनाएँ देखें: वे बताती हैं कि कब और कहाँ पहुँचना है।"],
    withdrawn: (given) => [afterEnd(given)],
    noshow: (given) => [afterEnd(given)],
  },
  moved: (from, to, seat) => `आप ऊपर गए हैं: ${nth(from)} पसंद से ${nth(to)} पसंद पर। ${seat} की सीट अब आपकी नहीं है।`,
  first: (to) => `यह आपकी ${nth(to)} पसंद है।`,
};

export const CHOICES = {
  freeze: {
    name: "फ्रीज़",
    line: ({ isSame }) => (isSame ? "यही सीट रखें।" : "यही सीट रखें, और किसी दूसरी के दावेदार न रहें।"),
    does: ({ isSame, isLast }) => [isLast ? "यही सीट रखें। यही आपका अंतिम प्रवेश होगा।" : isSame ? "यही सीट रखें।" : "यही सीट रखें, और किसी दूसरी के दावेदार न रहें।", ...(isLast || isSame ? [] : ["यह विंडो बंद होने के बाद आप फ्लोट या स्लाइड नहीं चुन सकते।"])],
    yes: "हाँ, फ्रीज़",
  },
  float: {
    name: "फ्लोट",
    line: ({ isSame, higher }) => (isSame ? "यही सीट रखें।" : `इसे रखें, और लिस्ट में ${higher.length === 1 ? "इससे ऊपर का प्रोग्राम" : `ऊपर के ${figure(higher.length)} प्रोग्रामों में से कोई`} मिले तो ऊपर जाएँ।`),
    does: ({ isSame, isLast, higher }) =>
      isLast
        ? ["यही सीट रखें। यही आपका अंतिम प्रवेश होगा, क्योंकि इसके बाद कोई राउंड नहीं है जिसमें आप ऊपर जा सकें।"]
        : isSame
          ? ["यही सीट रखें।"]
          : ["जब तक आप ऊपर नहीं जाते, यह सीट आपकी रहेगी। ऊपर जाने पर यह छूट जाती है।", "आप अपनी लिस्ट में इससे ऊपर के सभी प्रोग्रामों के दावेदार रहेंगे:", higher, "आपको इनमें से कोई मिलेगा या यही सीट रहेगी, नीचे की कभी नहीं।"],
    yes: "हाँ, फ्लोट",
  },
  slide: {
    name: "स्लाइड",
    line: ({ isSame, same }) =>
      isSame ? "यही सीट रखें।" : !same ? "इसे रखें, और केवल इसी संस्थान में ऊपर जाएँ।" : same.length ? `इसे रखें, और केवल इसी संस्थान में ऊपर जाएँ: ${count(same.length, "प्रोग्राम")}।` : "इसे रखें। इस संस्थान में आपकी लिस्ट में इससे ऊपर कुछ नहीं है।",
    does: ({ isSame, isLast, same }) =>
      isLast
        ? ["यही सीट रखें। यही आपका अंतिम प्रवेश होगा, क्योंकि इसके बाद कोई राउंड नहीं है जिसमें आप ऊपर जा सकें।"]
        : isSame
          ? ["यही सीट रखें।"]
          : [
              "यह सीट रखें, और अपनी लिस्ट में इससे ऊपर के केवल इसी संस्थान के प्रोग्रामों के दावेदार रहें:",
              ...(same?.length === 0 ? ["आपकी लिस्ट में ऐसा कोई नहीं है, इसलिए यही सीट रहेगी।"] : same ? [same] : []),
              "यह विंडो बंद होने के बाद आप फ्लोट नहीं चुन सकते।",
            ],
    yes: "हाँ, स्लाइड",
  },
  withdraw: {
    name: "नाम वापस लें",
    line: () => "",
    does: ({ seat }) => [
      seat ? `${seat} की अपनी सीट छोड़ें, और काउंसलिंग से बाहर हो जाएँ।` : "काउंसलिंग से बाहर हो जाएँ। इसके किसी भी राउंड में आपको सीट नहीं दी जाएगी।",
      "नाम वापस लेने के बाद वह फ़ैसला बदला नहीं जा सकता, इस विंडो के खुले रहते भी नहीं। अगर बोर्ड बाद में खाली सीटों के लिए विशेष राउंड करे, तो आप उसके लिए लिस्ट दे सकते हैं।",
    ],
    yes: "हाँ, हमेशा के लिए नाम वापस लें",
  },
};

/** How a candidate is while the season goes on. */
export const STANDINGS = {
  waiting: "आपके पास अभी सीट नहीं है। आप काउंसलिंग में बने हुए हैं और आपको कुछ करने की ज़रूरत नहीं।",
  offered: "यह सीट आपको पहली बार मिली है, और आपने अभी जवाब नहीं दिया है।",
  freeze: "आप यही सीट रखते हैं और किसी दूसरी के दावेदार नहीं हैं (फ्रीज़)।",
  float: "आप यह सीट रखते हैं और अपनी लिस्ट में इससे ऊपर के सभी प्रोग्रामों के दावेदार हैं (फ्लोट)।",
  slide: "आप यह सीट रखते हैं और अपनी लिस्ट में इससे ऊपर के, उसी संस्थान के प्रोग्रामों के दावेदार हैं (स्लाइड)।",
  withdrawn: "आपने काउंसलिंग से नाम वापस ले लिया है। नाम वापस लेने के बाद वह फ़ैसला बदला नहीं जा सकता।",
  noshow: "आपने अपनी पहली सीट का जवाब विंडो बंद होने से पहले नहीं दिया, इसलिए आप काउंसलिंग से बाहर हो गए।",
};

export const SEAT = {
  fields: { candidate: "उम्मीदवार", application: "आवेदन नंबर", seat: "सीट", final: "अंतिम प्रवेश", special: "विशेष राउंड की सीट", institute: "संस्थान", kind: "सीट का प्रकार", choice: "आपकी लिस्ट में", before: "पिछले राउंड में", place: (list) => `${list} में आपकी रैंक`, round: "राउंड", standing: "स्थिति" },
  none: "नहीं है",
  choice: (at) => `आपकी ${nth(at)} पसंद`,
  before: (at, seat) => `आपकी ${nth(at)} पसंद: ${seat}`,
  final: "यह प्रवेश अंतिम है।",
  noAdmission: "सभी राउंड हो गए और आपको प्रवेश नहीं मिला।",
  special: "अगर बोर्ड खाली सीटों के लिए विशेष राउंड करे, तो आप उसके लिए नई लिस्ट दे सकते हैं।",
  bySpecial: "यह सीट आपको विशेष राउंड में मिली है।",
  noSpecial: "विशेष राउंड में भी आपके पास सीट नहीं है।",
  lists: ({ by, isOver }) =>
    isOver ? `विशेष राउंड के लिए लिस्टें ${by} तक ली गईं। अगर उस राउंड में आपको सीट मिलती है, तो वह इसी पन्ने पर दिखेगी।` : `बोर्ड खाली सीटों के लिए विशेष राउंड कर रहा है। ${by} तक आप उसके लिए नई लिस्ट दे सकते हैं।`,
  listsLink: "विशेष राउंड के लिए लिस्ट बनाएँ",
  listsPage: "/choices/hi/",
  listsDoor: "वहाँ उसी नंबर और उसी टोकन से फिर साइन इन करें।",
  noList: "आपके पास सीट नहीं है, और किसी राउंड में मिल भी नहीं सकती, क्योंकि आपकी चॉइस लिस्ट खाली है।",
  lastKept: "आप यह सीट रखते हैं। यह विंडो बंद होते ही यही आपका अंतिम प्रवेश होगा।",
  changed: "पन्ने पर दिखने के बाद आपकी सीट या आपका जवाब बदल गया है। फिर से देखें।",
};

export const ANSWER = {
  question: "एक जवाब चुनें",
  change: "आप अपना जवाब बदल सकते हैं",
  confirm: "बताएँ कि आपको यह सीट चाहिए",
  noNeed: "दोबारा जवाब देने की ज़रूरत नहीं",
  withdrawOnly: "अगर आपको सीट नहीं चाहिए",
  noEnd: "इस पन्ने पर कोई समय घोषित नहीं है: समय बोर्ड की सूचनाओं में देखें।",
  narrow: (window) => `विंडो ${window} बंद होने तक आप अपना विकल्प बदल सकते हैं; केवल नाम वापस लेने का फ़ैसला बदला नहीं जा सकता। बाद में आपके विकल्प घट सकते हैं, बढ़ नहीं सकते: स्लाइड के बाद फ्लोट नहीं, और फ्रीज़ के बाद केवल नाम वापस लेना।`,
  keepSeat: "यही सीट रखें",
  keepLine: ({ isLast }) => (isLast ? "यही आपका अंतिम प्रवेश होगा।" : "यह आपकी लिस्ट का पहला प्रोग्राम है, इसलिए किसी भी जवाब से दूसरा नहीं मिल सकता।"),
  keepSure: "यही सीट रखें?",
  keepDoes: ({ isLast }) => [ANSWER.keepLine({ isLast }), "रसीद में फ्रीज़ लिखा होगा: कार्यालय इस जवाब को यही कहता है।"],
  keepYes: "हाँ, यही सीट रखें",
  same: (names) => `${listed(names)} से भी यही सीट रहती है`,
  details: "हर जवाब का मतलब",
  leave: "यह सीट छोड़ें और नाम वापस लें",
  leaveSeason: "काउंसलिंग से नाम वापस लें",
  seat: (seat) => `आपकी सीट: ${seat}।`,
  more: (number) => `और ${count(number, "प्रोग्राम")}`,
  until: (by, window) => `${by ? `${by} तक` : `विंडो ${window} बंद होने तक`} आप यह जवाब बदल सकते हैं।`,
  now: "आपका अभी का जवाब",
  closed: (choice, left) => `${CHOICES[choice].name} अब आपके लिए खुला नहीं है: पिछली विंडो बंद होते समय आपका जवाब ${left} था।`,
  full: "इस विंडो में कार्यालय के पास आपके 16 जवाब हैं। अब वह केवल नाम वापस लेना स्वीकार करता है।",
  used: (turns) => `इस विंडो में कार्यालय के पास ${turns === 1 ? "आपका 1 जवाब है" : `आपके ${figure(turns)} जवाब हैं`}। वह एक विंडो में कुल 16 जवाब लेता है, और उसके बाद केवल नाम वापस लेना।`,
  sure: (choice) => `${CHOICES[choice].name}?`,
  sureTick: (seat) => (seat ? "मेरी यह सीट हमेशा के लिए छोड़ी जाए।" : "काउंसलिंग से मेरा नाम हमेशा के लिए वापस लिया जाए।"),
  sending: "आपका जवाब भेजा जा रहा है …",
  taken: (choice) => `आपका जवाब ${CHOICES[choice]?.name ?? choice} है। कार्यालय ने उसे दर्ज कर लिया है।`,
  keep: "यह रसीद सँभालकर रखें: अदालत इसे कार्यालय के काग़ज़ों से मिलाती है।",
  earlier: (choice) => `यह पहले के एक जवाब की रसीद है। आपका अभी का जवाब है: ${CHOICES[choice]?.name ?? choice}।`,
  unknown: "पन्ने को पता नहीं कि आपका जवाब पहुँचा या नहीं। उसे फिर से भेजें: कार्यालय एक जवाब एक ही बार दर्ज करता है, और फिर उसकी रसीद दोहराता है।",
  again: "वही जवाब फिर से भेजें",
  other: "शायद आपने दूसरी विंडो में या दूसरे फ़ोन से जवाब दिया है। नीचे अपना जवाब देखें, और अगर अब भी बदलना चाहें तो फिर से दें।",
  cameRound: (round, seat) => `आपके जवाब देते समय राउंड ${round} आ गया। ${seat ? `अब आपके पास ${seat} में सीट है।` : "उसमें आपके पास सीट नहीं है।"}`,
  cameEnd: (seat) => `आपके जवाब देते समय अंतिम प्रवेश तय हो गए। ${seat ? `आपको ${seat} में प्रवेश मिला है।` : "आपके पास सीट नहीं है।"}`,
  save: "रसीद सेव करें",
  print: "छापें",
  when: ({ seat, at, body: { window, turn } }) => `वह ${at} पहुँचा${seat ? `; आपकी सीट: ${seat}` : ""}। विंडो ${window} में यह आपका जवाब नंबर ${turn} है।`,
  facts: ({ cand, application, seat, at, body }) => [
    "जवाब की रसीद",
    `उम्मीदवार: ${cand}`,
    ...(application ? [`आवेदन नंबर: ${application}`] : []),
    `जवाब: ${CHOICES[body.choice]?.name ?? body.choice}`,
    ...(seat ? [`सीट: ${seat}`] : []),
    `विंडो: ${body.window}, उसमें जवाब नंबर ${body.turn}`,
    `पहुँचने का समय: ${at}`,
  ],
  file: (facts, own, origin) => `${facts.join("\n")}\n\nकार्यालय के अपने शब्द:\n${own}\nकार्यालय ${origin}\n`,
  fileName: ({ cand, window, turn }) => `receipt-${cand}-window-${window}-turn-${turn}.txt`,
};

export const RECEIPTS = {
  columns: ["विंडो", "उसमें जवाब नंबर", "जवाब", "रसीद"],
  caption: "आपके जवाब, उसी क्रम में जिसमें कार्यालय ने उन्हें लिया",
  window: (window) => `विंडो ${window}`,
  none: "कार्यालय के पास आपका कोई जवाब नहीं है।",
  noTimes: "कार्यालय आपके जवाबों का क्रम रखता है, समय नहीं। जवाब देते समय जो रसीद आप सेव करते हैं, उसमें समय भी होता है।",
  file: (head, says, lines) => `${head}\n\n${says.join("\n")}\n\nकार्यालय के अपने शब्द:\n${lines.join("\n")}\n`,
  save: "सारी रसीदें सेव करें",
  fileName: (cand) => `receipts-${cand}.txt`,
};

export const WHY = {
  listTitle: "आपकी चॉइस लिस्ट",
  list: "आपकी चॉइस लिस्ट:",
  emptyList: "आपकी चॉइस लिस्ट खाली है।",
  first: (seat) => `आपके पास ${seat} है, जो आपकी लिस्ट का पहला प्रोग्राम है। इसलिए बताने को कुछ नहीं है।`,
  heading: (place, programme, round) => `${place}. ${programme} (राउंड ${round})`,
  asking: (programme) => `${programme} के बारे में पूछा जा रहा है …`,
  admitted: (round, step) => `राउंड ${round} में आपको यहाँ सीट मिली है। सीट का प्रकार: ${kindOfSeat(step, 1)}।`,
  gone: { withdrawn: "उसके बाद आपने नाम वापस ले लिया, इसलिए वह सीट चली गई।", noshow: "आपने समय पर जवाब नहीं दिया, इसलिए वह सीट चली गई।" },
  better: (programme) => `आपके पास ${programme} की सीट है, जो आपकी लिस्ट में इससे ऊपर है।`,
  notsought: (round) => [
    `राउंड ${round} में आप इस प्रोग्राम के दावेदार नहीं थे, इसलिए आपके लिए इस पर विचार नहीं हुआ।`,
    "ऐसा फ्रीज़ के बाद होता है, स्लाइड के बाद अगर प्रोग्राम दूसरे संस्थान का हो, और उन सबके साथ जो काउंसलिंग से बाहर हो चुके हैं।",
  ],
  refused: "यहाँ आपको सीट नहीं मिली।",
  considered: "इन सीटों के लिए आप पर विचार हुआ:",
  noSeats: "ऐसी कोई सीट नहीं है।",
  worseNo: (seats) => (seats === 1 ? "एकमात्र सीट भर चुकी है। जिस उम्मीदवार को सीट मिली, उसकी रैंक आपसे बेहतर है।" : `सभी ${figure(seats)} सीटें भर चुकी हैं। जिन्हें सीट मिली, उन सबकी रैंक आपसे बेहतर है।`),
  // each candidate with a worse place fills a protected seat, and one that the refused candidate cannot fill
  worseYes: (seats, others) =>
    seats === 1
      ? `एकमात्र सीट भर चुकी है। वह ${anyOf(others)} के लिए आरक्षित है, इसलिए आपसे नीचे की रैंक वाले उम्मीदवार को मिली। उस उम्मीदवार के बिना विशेष श्रेणी की कोई सीट नहीं भरती।`
      : `सभी ${figure(seats)} सीटें भर चुकी हैं। जिन्हें सीट मिली, उन सबकी रैंक आपसे बेहतर है, सिवाय उस सीट के जो ${anyOf(others)} के लिए आरक्षित है। उस सीट वाले उम्मीदवार के बिना विशेष श्रेणी की कम सीटें भरतीं।`,
  nowhere: "यहाँ किसी प्रकार की सीट आपके लिए खुली नहीं थी।",
  // what a step admits, and how far that is from the place of the candidate
  compare: ({ step, lines, held, best, own, isWithin }) =>
    lines.length === 0
      ? `${kindOfSeat(step)} अब किसी और को नहीं मिल सकतीं।`
      : best === null
        ? `${kindOfSeat(step)} केवल ${listed(lines.map((it) => holders(it.traits)), "या")} को मिल सकती हैं, और आप उनमें नहीं हैं।`
        : `${endOf(step, held, held.length === lines.length)} ${isWithin ? WITHIN : BEHIND(best, own)}`,
  // why a place of one list comes before a smaller number of another one
  before: (best, own, first) =>
    `${best.of} की ${figure(best.rank)} आपकी ${figure(own.rank)} से पहले आती है, क्योंकि ये सीटें पहले ${best.of === first ? "उन सबको मिलती हैं जिन्होंने सबके लिए तय मानक पूरा किया" : `${best.of} के सभी लोगों को मिलती हैं`}, और ${own.of} में वे हैं जिन्होंने केवल उसी लिस्ट का मानक पूरा किया।`,
  allCutoffs: "इस प्रोग्राम के सभी कट-ऑफ़, दूसरों के भी",
  further: "बाकी प्रकार की सीटें भी आपको नहीं मिल सकतीं:",
  relaxed: "ओपन और आरक्षण से मुक्त की गई सीटें यहाँ आपके लिए नहीं हैं, क्योंकि आपकी रैंक छूट वाली है: वह केवल आपके वर्ग की सीटों के लिए गिनी जाती है।",
  counts: (own, list) => `यहाँ ${own.of ?? list} वाली आपकी रैंक गिनी जाती है: ${figure(own.rank)}।`,
  within: "कट-ऑफ़ के अनुसार यह प्रोग्राम आपको मिलना चाहिए था। कुछ गड़बड़ है: कट-ऑफ़ और कारण कार्यालय को दिखाएँ।",
  whichPlace: "पन्ने को पता नहीं कि इस प्रोग्राम में आपकी कौन-सी रैंक गिनी जाती है। उसे इन प्रकाशित कट-ऑफ़ से मिलाएँ:",
  line: ({ step, lines }) => endOf(step, lines),
  cutoffsAre:
    "आपने इस राउंड में भाग लिया और आप इस प्रोग्राम के दावेदार थे। इसलिए अगर आपकी रैंक ऊपर दिए किसी कट-ऑफ़ तक पहुँचती, तो सीट ज़रूर मिलती। वह किसी तक नहीं पहुँचती, इसलिए इन आँकड़ों के अनुसार सीट न मिलना सही है।",
  checked: "प्रकाशित लिस्ट से पन्ने को यह पता चलता है:",
  seats: (programme) => `${programme} की सीटें किसे मिलीं`,
  next: (number) => `अगले ${number} के कारण बताएँ`,
  below: (programme) => `आपके पास ${programme} है। जब तक वह है, आपकी लिस्ट में उससे नीचे के प्रोग्रामों से फ़र्क़ नहीं पड़ता।`,
  yours: (own) => `वहाँ आपकी रैंक ${ranked(own)} है। जिन प्रकार की सीटों के लिए आप पर विचार हुआ, उनके हर खाने में लिखा है कि उसकी रैंक आपसे बेहतर है या नहीं।`,
  noPlaces: "बोर्ड ने इन उम्मीदवारों की रैंक प्रकाशित नहीं की है, इसलिए हर खाने में लिस्ट का क्रम है। अपनी रैंक आप ऊपर दिए कट-ऑफ़ से मिला सकते हैं।",
  noList: "पन्ना प्रकाशित लिस्ट नहीं पढ़ पाया।",
  unread: "पन्ना यह कारण नहीं पढ़ पाया। ये कार्यालय के अपने शब्द हैं।",
  noCutoffs: "पन्ना इस प्रोग्राम के कट-ऑफ़ नहीं पढ़ पाया।",
  toAnswers: "अपने जवाबों पर वापस जाएँ",
  toTop: "सबसे ऊपर वापस जाएँ",
  save: "शिकायत के लिए यह सब सेव करें",
  saveHint: "एक फ़ाइल में, वाक्यों में: आपका विवरण, आपकी लिस्ट, आपकी रसीदें, कारण और कट-ऑफ़, और उनके नीचे कार्यालय के अपने शब्द। आपका टोकन उसमें नहीं है।",
  fileName: (cand, round) => `complaint-${cand}-round-${round}.txt`,
};

const WITHIN = "आपकी रैंक इसके भीतर है।";
const BEHIND = (best, own) =>
  own.of === best.of
    ? `आपकी रैंक ${figure(own.rank)} है, ${best.traits ? `${holders(best.traits)} की आख़िरी रैंक ${figure(best.rank)} से ` : ""}${figure(own.rank - best.rank)} पीछे।`
    : `आपकी रैंक ${ranked(own)} है, और वह पूरी लिस्ट ${best.of} के पीछे आती है।`;

/** The file for a complaint. */
export const COMPLAINT = {
  title: (cand, round) => `उम्मीदवार ${cand}: राउंड ${round} के बारे में शिकायत के लिए`,
  facts: ({ application, titles: [board, season], origin, time }) => [
    ...(board ? [`बोर्ड: ${board}`] : []),
    ...(season ? [`काउंसलिंग: ${season}`] : []),
    ...(application ? [`आवेदन नंबर: ${application}`] : []),
    `सेव करने का समय: ${time}, ${origin} से`,
  ],
  own: "क्या ग़लत है, उम्मीदवार के अपने शब्दों में",
  ownSpace: "..",
  known: "कार्यालय उम्मीदवार के बारे में क्या जानता है",
  says: "पन्ना उम्मीदवार से ये वाक्य कहता है। वह इन्हें कार्यालय के अपने शब्दों से बनाता है, जो अंत में हैं और मान्य हैं।",
};

/** A letter of allotment for paper. */
export const LETTER = {
  title: (isFinal) => (isFinal ? "अंतिम सीट आवंटन पत्र" : "सीट आवंटन पत्र"),
  fields: {
    season: "काउंसलिंग",
    board: "बोर्ड",
    candidate: "उम्मीदवार नंबर",
    name: "नाम",
    application: "आवेदन नंबर",
    programme: "प्रोग्राम",
    institute: "संस्थान",
    kind: "सीट का प्रकार",
    category: "वर्ग",
    traits: "विशेष श्रेणी",
    place: (list) => `${list} में रैंक`,
    round: "राउंड",
    standing: "स्थिति",
    receipt: "पिछले जवाब की रसीद",
    end: "विंडो बंद होने का समय",
    help: "पूछताछ",
  },
  byHand: "हाथ से भरें",
  noReceipt: "अभी कोई नहीं",
  use: "यह पत्र किस काम का है",
  uses: (isFinal, round) => [
    isFinal ? "यह बताता है कि अंत में आपकी सीट कौन-सी है। संस्थान में पहुँचते समय इसे साथ ले जाएँ।" : "यह बताता है कि इस राउंड में आपके पास कौन-सी सीट है। अगले राउंड में आप ऊपर जाएँ, तो पत्र फिर से खोलें, क्योंकि तब इसकी जगह नया पत्र मान्य होगा।",
    round > 1 && "पिछले राउंड के हर पत्र की जगह अब यही पत्र मान्य है।",
    "अपना नाम इस पर हाथ से लिखें, क्योंकि कार्यालय नाम नहीं जानता।",
    "संस्थान के पास कार्यालय की लिस्ट होती है। वह उसमें आपका उम्मीदवार नंबर देखता है और सीट को इस पत्र से मिलाता है। दोनों में फ़र्क़ हो तो लिस्ट मान्य है।",
    "आख़िरी पंक्तियाँ कार्यालय का उत्तर हैं। अदालत कार्यालय से यही पंक्तियाँ लेकर मिला सकती है।",
  ].filter(Boolean),
  own: "कार्यालय के अपने शब्द",
  foot: (origin, time) => `${origin} पर बना: ${time}।`,
  save: "पत्र सेव करें",
  fileName: (cand, round) => `letter-${cand}-${round}.html`,
  replaces: (round, seat) => `राउंड ${round} में आप ऊपर गए हैं, इसलिए पिछले राउंड के आपके पत्रों की जगह अब यही पत्र मान्य है। ${seat} की सीट अब आपकी नहीं है।`,
  added: (number) => `जुड़ गया: आपका आवेदन नंबर ${number} अब पत्र पर और आपकी रसीदों पर है।`,
  time: clock,
};

// ---- the clerk

export const CLERK = {
  signedIn: "आप क्लर्क के रूप में साइन इन हैं।",
  left: { idle: "15 मिनट से किसी ने पन्ना नहीं छुआ, इसलिए उसने आपको साइन आउट कर दिया।", asked: "आप साइन आउट हो गए हैं। पन्ना टोकन भूल चुका है।" },
  denied: "यह क्लर्क का टोकन नहीं है।",
  closes: ({ now, rounds }) => [
    now < rounds ? `विंडो ${now} बंद करने पर राउंड ${now + 1} प्रकाशित होता है।` : `विंडो ${now} बंद करने पर अंतिम प्रवेश तय होते हैं और काउंसलिंग पूरी हो जाती है।`,
    "बाद में आने वाले जवाब कार्यालय दर्ज नहीं करता।",
    ...(now > 0 ? ["जिस उम्मीदवार ने अपनी पहली सीट का जवाब नहीं दिया, वह काउंसलिंग से बाहर हो जाता है।"] : []),
  ],
  counts: ({ seats, unanswered }, at) => `दी गई ${count(seats, "सीट", "सीटों")} में से ${figure(unanswered)} का अब तक कोई जवाब नहीं आया है। विंडो बंद होते ही ये उम्मीदवार काउंसलिंग से बाहर हो जाएँगे। गिनती का समय: ${clock(at)}।`,
  clock: (ms) => `सर्वर की घड़ी में अभी ${clock(ms)} हैं, भारतीय समय के अनुसार।`,
  who: (number) => `किसने जवाब नहीं दिया: ${count(number, "उम्मीदवार")}`,
  whoSave: "उनके नंबर सेव करें",
  whoFile: (window) => `unanswered-window-${window}.txt`,
  early: (end) => `घोषित समय ${clock(end)} है, और वह अभी नहीं आया है। उम्मीदवार उसी पर भरोसा करते हैं।`,
  over: "सभी विंडो बंद हैं। काउंसलिंग पूरी हो चुकी है।",
  close: (window) => `विंडो ${window} बंद करें`,
  sureTitle: (window) => `विंडो ${window} बंद करें?`,
  sure: ({ now, rounds }) => [now < rounds ? `राउंड ${now + 1} तुरंत प्रकाशित हो जाएगा।` : "अंतिम प्रवेश तय हो जाएँगे और काउंसलिंग पूरी हो जाएगी।", "इसे वापस नहीं लिया जा सकता।"],
  sureType: (window) => ({ text: String(window), label: `पक्का करने के लिए विंडो का नंबर लिखें: ${window}`, mode: "numeric" }),
  sureEarly: (window) => ({ text: `विंडो ${window} समय से पहले बंद की जाए`, label: `पक्का करने के लिए यह वाक्य लिखें: विंडो ${window} समय से पहले बंद की जाए` }),
  sureYes: "विंडो बंद करें",
  cutting: "कार्यालय विंडो बंद कर रहा है। उम्मीदवार ज़्यादा हों तो इसमें समय लगता है।",
  published: ({ round, seated }) => `राउंड ${round} प्रकाशित हो गया। ${count(seated, "उम्मीदवार", "उम्मीदवारों")} के पास सीट है।`,
  final: ({ admitted }) => `अंतिम प्रवेश तय हो गए। ${count(admitted, "उम्मीदवार", "उम्मीदवारों")} को प्रवेश मिला है।`,
  otherClerk: "आपसे पहले किसी ने विंडो बंद कर दी। कुछ नहीं बदला। ऊपर काउंसलिंग की स्थिति देखें।",
  unknownCut: "पन्ने को पता नहीं कि विंडो बंद हुई या नहीं। फिर से पूछें: कार्यालय उसे एक ही बार बंद करता है, और फिर उसकी रसीद दोहराता है।",
  unknownRaise: "पन्ने को पता नहीं कि सीटें बढ़ीं या नहीं। फिर से पूछें: कार्यालय उन्हें एक ही बार बढ़ाता है, और फिर उसकी रसीद दोहराता है।",
  again: "फिर से पूछें",
  noRaise: "इसके बाद कोई राउंड नहीं है, इसलिए सीटें नहीं बढ़ाई जा सकतीं।",
  raiseTitle: ({ programme, step, seats }) => `${programme}, ${kindOfSeat(step)}: ${count(seats, "सीट", "सीटें")}?`,
  raiseLines: ({ window, seats }, before) => [
    ...(before === null ? [] : [`राउंड ${window} में ऐसी ${count(before, "सीट थी", "सीटें थीं")}।`]),
    `राउंड ${window + 1} से ऐसी ${count(seats, "सीट होगी", "सीटें होंगी")}।`,
    "इसे वापस नहीं लिया जा सकता।",
  ],
  raiseYes: "सीटें बढ़ाएँ",
  raising: "कार्यालय से सीटें बढ़ाने को कहा जा रहा है …",
  raised: ({ programme, step, seats, window }) => `${programme}, ${kindOfSeat(step)}: राउंड ${window + 1} से ${count(seats, "सीट", "सीटें")}।`,
  seat: (b, programme) => (b.programme ? `उम्मीदवार ${b.cand} के पास ${programme} की सीट है। सीट का प्रकार: ${kindOfSeat(b.step, 1)}।` : `उम्मीदवार ${b.cand} के पास सीट नहीं है।`),
  standing: {
    waiting: "उम्मीदवार पहली सीट के इंतज़ार में है।",
    offered: "सीट पहली बार मिली है और जवाब नहीं आया है।",
    freeze: "पिछला जवाब फ्रीज़ है।",
    float: "पिछला जवाब फ्लोट है।",
    slide: "पिछला जवाब स्लाइड है।",
    withdrawn: "उम्मीदवार ने नाम वापस ले लिया है।",
    noshow: "उम्मीदवार ने पहली सीट का जवाब नहीं दिया।",
  },
  save: "ये रसीदें सेव करें",
  fileName: "receipts-clerk.txt",
};

// ---- refusals and troubles

const REFUSALS = {
  1: () => "इस नंबर का कोई उम्मीदवार कार्यालय के पास नहीं है।",
  2: () => "इस कोड का कोई प्रोग्राम कार्यालय के पास नहीं है।",
  3: () => "इस टोकन से यह नहीं देखा जा सकता। नंबर और टोकन जाँचें। कुछ नहीं बदला।",
  5: ({ kept }) => `इस बारी के लिए कार्यालय के पास आपका दूसरा जवाब है: ${CHOICES[kept]?.name ?? kept}। कुछ नहीं बदला।`,
  6: ({ now }) => `वह विंडो बंद हो चुकी है, और अब विंडो ${now} है। कुछ नहीं बदला।`,
  7: ({ now }) => `वह विंडो खुली नहीं है। अभी विंडो ${now} है। कुछ नहीं बदला।`,
  8: ({ last }) => `इस विंडो में कार्यालय के पास आपके दूसरे जवाब हैं। आख़िरी की बारी ${last} है। कुछ नहीं बदला।`,
  9: ({ how }) => (how === "withdrawn" ? "आपने काउंसलिंग से नाम वापस ले लिया है। नाम वापस लेने के बाद वह फ़ैसला बदला नहीं जा सकता।" : "आपने अपनी पहली सीट का जवाब समय पर नहीं दिया, इसलिए आप काउंसलिंग से बाहर हो गए।"),
  10: () => "आपके पास सीट नहीं है, इसलिए आप केवल नाम वापस ले सकते हैं। कुछ नहीं बदला।",
  11: ({ standing }) => `पिछली विंडो बंद होते समय आपका जवाब ${CHOICES[standing]?.name ?? standing} था, और उसके बाद विकल्प घट सकते हैं, बढ़ नहीं सकते। कुछ नहीं बदला।`,
  12: () => "इस विंडो में कार्यालय के पास आपके 16 जवाब हैं। अब वह केवल नाम वापस लेना स्वीकार करता है। कुछ नहीं बदला।",
  13: () => "यह प्रोग्राम उम्मीदवार की चॉइस लिस्ट में नहीं है।",
  14: ({ published }) => (published === 0 ? "अभी कोई राउंड प्रकाशित नहीं हुआ है।" : `ऐसा कोई राउंड नहीं है। अब तक ${figure(published)} राउंड प्रकाशित ${published === 1 ? "हुआ है" : "हुए हैं"}।`),
  15: () => "यह आख़िरी विंडो है। इसके बाद कोई राउंड नहीं, इसलिए सीटें नहीं बढ़ाई जा सकतीं।",
  16: () => "आरक्षण से मुक्त की गई सीटें नहीं बढ़ाई जा सकतीं: वे वही सीटें हैं जो किसी वर्ग में खाली रह जाती हैं।",
  17: ({ seats }) => `ऐसी ${count(seats, "सीट पहले से है", "सीटें पहले से हैं")}। सीटें केवल बढ़ाई जा सकती हैं। कुछ नहीं बदला।`,
  18: ({ total }) => `एक प्रोग्राम में एक प्रकार की ज़्यादा से ज़्यादा 4,000 सीटें हो सकती हैं, और सभी प्रोग्रामों में मिलाकर 10,00,000। अभी कुल ${figure(total)} हैं। कुछ नहीं बदला।`,
};

/** What a refusal means. Its number and name are in the office's own words. */
export const refusal = (body) => REFUSALS[body.refused]?.(body) ?? "कार्यालय ने यह नहीं माना।";

const TROUBLES = {
  lost: "कोई उत्तर नहीं आया। शायद आपका इंटरनेट बंद है।",
  broken: "उत्तर आते-आते बीच में रुक गया। शायद आपका इंटरनेट धीमा या बंद है।",
  away: "कार्यालय अभी उत्तर नहीं दे रहा है।",
  busy: "अभी बहुत ज़्यादा लोग पूछ रहे हैं। थोड़ा रुकें।",
  keeper: "कार्यालय पक्का नहीं कर पाया कि यह दर्ज हुआ, इसलिए वह रसीद नहीं देता।",
  memory: "कार्यालय के कंप्यूटर की मेमोरी कम पड़ गई।",
  closed: "वेब सर्वर यह सबको नहीं देता। ज़रूरत हो तो बोर्ड से पूछें।",
};

/** What is wrong with a reply: the office's refusal, or why there is no reply of the office. */
export const trouble = (got) => (got.body ? refusal(got.body) : TROUBLES[got.trouble] ?? `कार्यालय और यह पन्ना एक-दूसरे को नहीं समझ पाए (स्टेटस ${got.status})।`);
export const LATER = "थोड़ी देर बाद फिर कोशिश करें।";
export const OLD = "नीचे जो दिख रहा है, वह पहले का है।";
