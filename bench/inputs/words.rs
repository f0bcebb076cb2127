//! Words of several scripts, of which texts in no order are made.

const ENGLISH: &str = "a about after all an and any are as at be because been before between both but by call can \
    case change character come could day did do each end every few file first for from get give go good had has have \
    he how I if in into is it its know large last left length like line little long look make many may message more \
    most much must name never new next no not now number octet of off on once one only or other our out over own \
    part place point protocol read right said same see send set she should size small so some state still such take \
    text than that the their them then there these they thing this those through time to too two under until up use \
    value very was way we well were what when where which while who will with without word work world would write \
    year you your HTTP/1.1 RFC 1987 3.14 42 index.html user@example.net";

/// English words with a character that isn't ASCII.
const ENGLISH_WITH_ACCENTS: &str = "café naïve façade cliché fiancé soufflé piñata jalapeño Zoë Brontë coöperate \
    über-cool smörgåsbord £5 20°C 5€ it’s don’t";

/// French, German, Spanish, Polish and Czech.
const LATIN: &str = "à être été déjà français élève après côté fenêtre où là-bas cœur naïf garçon hôpital même très \
    père mère école forêt août leçon reçu pêche tête général différent l'été d'où le la les des une avec pour dans \
    sur für über können müssen größer Straße schön Mädchen Tür früh Bücher Häuser zurück während natürlich hören \
    weiß heißt Füße und der die das nicht mit sich auf año niño mañana también después información está aquí corazón \
    español difícil más según número país señor que los por con para del zażółć gęślą jaźń łódź książka dziękuję \
    proszę święto żółty źródło miłość być więcej się przez nie jest příliš žluťoučký kůň úpěl ďábelské ódy město \
    člověk dítě může když řeka světlo večer být náměstí že jsem také";

const CYRILLIC: &str = "и в не на я быть он с что а по это она этот к но они мы весь который из у то за свой как \
    человек время год сказать мочь такой один рука жизнь день место съешь ещё мягких булок протокол сообщение и в на \
    що це як від та або але є її його ще коли якщо людина життя слово ґанок їжак щастя мова країна річ вулиця да се \
    от са като във който може език вода път";

const GREEK: &str = "και το να του η της με που την από για είναι στο ένα τα τον δεν θα στην τους μια σε αυτό οι ή \
    έχει ότι άνθρωπος χρόνος ζωή ημέρα χέρι τόπος λόγος γλώσσα νερό δρόμος ευχαριστώ καλημέρα θάλασσα ήλιος ουρανός \
    παιδί γράμμα μήνυμα πρωτόκολλο κείμενο ψυχή βιβλίο σχολείο πόλη χώρα αλλά όταν πολύ μεγάλος μικρός πρώτος";

/// Thai, Chinese, Japanese and Korean, whose characters have three octets, and emoji of four.
const WIDE: &str = "ประเทศไทย ภาษา คน น้ำ เมือง วันนี้ ข้อความ หนังสือ สวัสดี ขอบคุณ ที่ และ ของ 的 一 是 在 不 了 有 和 \
    人 这 中 大 我们 时间 中国 世界 工作 问题 发展 经济 社会 文化 学生 技术 信息 网络 计算机 互联网 人工智能 \
    一心一意 電腦 圖書館 これ それ 日本 言葉 ありがとう コンピュータ ネットワーク 手紙 する です ます の に は を \
    한국 사람 시간 말 메시지 컴퓨터 안녕하세요 물 길 그리고 😀 😂 😅 😍 🤔 🚀 🔥 🎉 🌍 🐶";

/// What a text in no order is made of.
pub struct Words {
    pub name: &'static str,
    words: &'static str,
    /// Others, so many of a hundred.
    others: &'static str,
    percent: u64,
    /// After so many of a hundred words there is a space.
    spaces: u64,
}

pub const WORDS: [Words; 5] = [
    Words { name: "1% not ASCII", words: ENGLISH, others: ENGLISH_WITH_ACCENTS, percent: 5, spaces: 100 },
    Words { name: "Latin", words: LATIN, others: "", percent: 0, spaces: 100 },
    Words { name: "Cyrillic", words: CYRILLIC, others: "", percent: 0, spaces: 100 },
    Words { name: "Greek", words: GREEK, others: "", percent: 0, spaces: 100 },
    Words { name: "wide", words: WIDE, others: "", percent: 0, spaces: 20 },
];

impl Words {
    /// So many octets of words in no order, or a few less, so that the last character is whole. They are the same in
    /// each run.
    pub fn text(&self, len: usize) -> Vec<u8> {
        let words: Vec<&str> = self.words.split_whitespace().collect();
        let others: Vec<&str> = self.others.split_whitespace().collect();
        let mut disorder = super::Disorder::new();
        let mut text = String::new();
        while text.len() < len {
            let from = if disorder.below(100) < self.percent { &others } else { &words };
            text.push_str(from[disorder.below(from.len() as u64) as usize]);
            if disorder.below(100) < self.spaces {
                text.push(' ');
            }
        }
        super::cut(text.into_bytes(), len)
    }
}
